class Person {
  String name = "Ada";
  age : Int <- 36;
  name() : String { name };
};
class Main inherits IO {
  main() : Object { out_string((new Person).name()) };
};
