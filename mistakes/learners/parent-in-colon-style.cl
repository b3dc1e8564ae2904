class Employee {
  salary() : Int { 2000 };
};
class Manager : Employee {
  bonus : Int <- 500;
  salary() : Int { 2000 + bonus };
};
class Main inherits IO {
  main() : Object { out_int((new Manager).salary()) };
};
