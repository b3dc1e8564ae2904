class Main { main() : Object { 0 }; };
class
  SELF_TYPE inherits
  SELF_TYPE { };
class
  SELF_TYPE { };
class A inherits
  SELF_TYPE { };
