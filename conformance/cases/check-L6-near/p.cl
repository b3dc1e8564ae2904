class Main inherits IO {
  main() : Object {
    { 3 *(1); 3 *(* ) *)2; (3)*(**)(2); } -- *) here
    (* (* ** *) ) * *)
  };
};
