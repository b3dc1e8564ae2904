





class C6 { f() : Int { 1 }; };
