



class C4 { f() : Int { 1 }; };
