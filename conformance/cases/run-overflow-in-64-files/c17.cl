
















class C17 { f() : Int { 1 }; };
