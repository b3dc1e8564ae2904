class Greeter inherits IO {
  name : String;
  ask() : Object {
    {
      out_string("Who are you? ");
      name <- in_string();
    }
  };
  greet() : Object { out_string("Hello ".concat(name).concat("!\n")) };
};
class Main {
  g : Greeter <- new Greeter;
  main() : Object { { g.ask(); g.greet(); } };
};
