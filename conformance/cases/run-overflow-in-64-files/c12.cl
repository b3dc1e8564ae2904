











class C12 { f() : Int { 1 }; };
