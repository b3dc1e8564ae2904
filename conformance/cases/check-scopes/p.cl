class A {
  x : Int <- y + z;
  y : Int;
  f(x : Bool) : Bool { let x : Int <- if x then 1 else 2 fi, x : String <- "a".substr(x, x) in
    case x of x : Int => x = 1; y : String => y = x; esac };
  g(y : String) : Int { { y <- "b"; x <- y.length(); } };
  h() : Int { { let v : Int in v; v; } };
};
class B inherits A { z : Int; k() : Int { x + y + z + z() }; z() : Int { z }; };
class Main { main() : Object { 0 }; };
