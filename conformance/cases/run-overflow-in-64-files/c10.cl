









class C10 { f() : Int { 1 }; };
