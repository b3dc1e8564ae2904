










class C11 { f() : Int { 1 }; };
