class Main inherits IO {
  main() : Object {
    1
  };
};
class A inherits Int { };
