




class C5 { f() : Int { 1 }; };
