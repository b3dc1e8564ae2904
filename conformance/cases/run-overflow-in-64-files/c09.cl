








class C9 { f() : Int { 1 }; };
