
class A inherits
  Int { };
