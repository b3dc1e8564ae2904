












class C13 { f() : Int { 1 }; };
