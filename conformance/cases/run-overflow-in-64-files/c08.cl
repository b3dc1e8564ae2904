







class C8 { f() : Int { 1 }; };
