class Inventory inherits IO {
  apples : Int <- 5;
  take(n : Int) : Object {
    {
      if apples < n then out_string("not enough\n") fi;
      out_int(apples);
    }
  };
};
class Main { main() : Object { (new Inventory).take(7) }; };
