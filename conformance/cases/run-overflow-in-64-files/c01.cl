
class C1 { f() : Int { 1 }; };
