class A { self : Int; };
