class B inherits A { f(x : Z, y : SELF_TYPE) : Y { 1 }; a : Int; a : X; };
class A { f() : Int { 1 }; a : Int; f() : Int { 1 }; };
class Main { };
