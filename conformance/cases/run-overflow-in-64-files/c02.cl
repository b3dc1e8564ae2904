

class C2 { f() : Int { 1 }; };
