class Main inherits IO {
  x : Bool;
  n : Int <- n;
  f(x : Object, y : Object) : Int { 1 };
  main() : Object {
    { while x loop x pool; if x then x else x fi; case x of x : Bool => x; y : Object => y; esac; let y : Object <- x, y : Object <- y in y; x.copy(); x@Object.copy(); f(x, x); self@Main.f(x, x); n + n; n < n; n <= n; n = n; not x; isvoid x; ~n; x <- x; (x); }
  };
};
