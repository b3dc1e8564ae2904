


class C3 { f() : Int { 1 }; };
