













class C14 { f() : Int { 1 }; };
