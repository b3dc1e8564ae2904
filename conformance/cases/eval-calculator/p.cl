-- Lines with an operator, each with a number on the next, become a tree of objects, which is written and evaluated.
class Expr { value() : Int { 0 }; text() : String { "" }; };
class Number inherits Expr {
  n : Int;
  set(x : Int) : SELF_TYPE { { n <- x; self; } };
  value() : Int { n };
  text() : String { if n < 0 then "-".concat(digits(~n)) else digits(n) fi };
  digits(x : Int) : String {
    if x < 10 then "0123456789".substr(x, 1) else digits(x / 10).concat(digits(x - x / 10 * 10)) fi
  };
};
class Two inherits Expr {
  left : Expr; right : Expr;
  set(l : Expr, r : Expr) : SELF_TYPE { { left <- l; right <- r; self; } };
  sign() : String { "?" };
  text() : String { "(".concat(left.text()).concat(sign()).concat(right.text()).concat(")") };
};
class Plus inherits Two { sign() : String { "+" }; value() : Int { left.value() + right.value() }; };
class Minus inherits Two { sign() : String { "-" }; value() : Int { left.value() - right.value() }; };
class Times inherits Two { sign() : String { "*" }; value() : Int { left.value() * right.value() }; };
class By inherits Two { sign() : String { "/" }; value() : Int { left.value() / right.value() }; };
class Main inherits IO {
  e : Expr <- new Number;
  main() : Object {
    let line : String <- in_string() in while not line = "" loop {
      let n : Number <- (new Number).set(in_int()) in
        e <- if line = "+" then (new Plus).set(e, n) else if line = "-" then (new Minus).set(e, n)
            else if line = "*" then (new Times).set(e, n) else (new By).set(e, n) fi fi fi;
      out_string(e.text()).out_string(" = ").out_int(e.value()).out_string("\n");
      line <- in_string();
    } pool
  };
};
