class Main inherits IO {
  main() : Object {
    if true then 1 fi
  };
};
class A { f() : Int { 1 }; };
