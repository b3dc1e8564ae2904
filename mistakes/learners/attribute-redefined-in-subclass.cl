class Person {
  name : String <- "Kim";
  getName() : String { name };
};
class Student inherits Person {
  name : String;
  school : String;
  enroll(n : String, s : String) : Student { { name <- n; school <- s; self; } };
};
class Main inherits IO {
  main() : Object { out_string((new Student).enroll("Ada", "MIT").getName()) };
};
