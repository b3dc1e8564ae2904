














class C15 { f() : Int { 1 }; };
