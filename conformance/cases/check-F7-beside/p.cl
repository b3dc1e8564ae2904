class A { f(x : Int) : Int { 1 }; };
class B inherits A { f(y : Int) : Int { 1 }; copy() : Object { self }; };
class C inherits B { f(x : Bool) : Int { 1 }; };
class D inherits C { f(x : Bool) : Int { 1 }; };
class Main { main() : Object { 0 }; };
