class Menu inherits IO {
  show() : Object {
    {
      out_string("1 - add
2 - remove\n3 - quit\n");
      out_string("choice: ");
    }
  };
  choose() : Int { { show(); in_int(); } };
};
class Main inherits IO {
  main() : Object {
    let c : Int <- (new Menu).choose() in
      if c = 3 then out_string("bye\n") else out_int(c) fi
  };
};
