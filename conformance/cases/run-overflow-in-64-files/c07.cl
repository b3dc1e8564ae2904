






class C7 { f() : Int { 1 }; };
