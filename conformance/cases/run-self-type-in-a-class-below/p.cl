class Main inherits IO {
  main() : Object {
    { out_string((new B).make().type_name()); out_string((new A).make().type_name()); out_string((new B).make().copy().make().type_name()); }
  };
};
class A { make() : SELF_TYPE { new SELF_TYPE }; };
class B inherits A { };
