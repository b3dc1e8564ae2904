















class C16 { f() : Int { 1 }; };
