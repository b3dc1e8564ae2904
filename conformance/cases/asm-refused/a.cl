class A { f() : Int { true }; };
