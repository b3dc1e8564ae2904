-- Variables of let: defaults, what hides what, and what an initial value sees. Formals and branches hide attributes, too,
-- and an attribute and a method may have one name.
class A { };
class Main inherits IO {
  x : Int <- 1;
  value : Int <- 1;
  value() : Int { value + 100 };
  set(value : Int) : Int { { value <- value + 1; value; } };
  self() : Int { 12 };
  names() : Object { {
    n(value); n(value()); n(set(40)); n(value);
    case 7 of value : Int => { value <- value + 1; n(value); }; esac;
    n(value);
    let value : Int <- 3 in { n(value); n(value()); n(set(value)); n(value); };
    n(value <- 5); n(value()); n(self()); n(self.self());
    nl();
  } };
  nl() : Object { out_string("\n") };
  n(i : Int) : SELF_TYPE { out_int(i).out_string(" ") };
  t(v : Bool) : SELF_TYPE { out_string(if v then "true " else "false " fi) };
  formal(x : Int) : Object { {
    n(x);
    let x : Int <- x + 1 in { n(x); x <- 50; n(x); };
    n(x);
    nl();
  } };
  defaults() : Object {
    let i : Int, b : Bool, s : String, o : Object, a : A, io : IO, me : SELF_TYPE, m : Main in {
      n(i).t(b).n(s.length()).t(isvoid o).t(isvoid a).t(isvoid io).t(isvoid me).t(isvoid m);
      nl();
    }
  };
  main() : Object { {
    defaults();
    let x : Int <- x + 1 in n(x);
    n(x); nl();
    let x : Int <- 2, x : Int <- x * 10, x : Int <- x + 5 in n(x);
    n(x); nl();
    let x : Int <- 7 in { x <- x + 1; n(x); let x : Int in { n(x); x <- 3; n(x); }; n(x); };
    n(x); nl();
    let x : String <- "text" in n(x.length());
    let y : Int <- let x : Int <- 4 in x * x in n(y + x);
    nl();
    formal(30);
    let y : Int <- x <- 9 in { y <- y + 1; n(x).n(y); };
    nl();
    let a : Int <- 1, b : Int <- a + 1, c : Int <- a + b, d : Int <- b + c, e : Int <- c + d in n(a).n(b).n(c).n(d).n(e);
    nl();
    let i : Int in while i < 3 loop { let sum : Int in { sum <- sum + i; n(sum); }; i <- i + 1; } pool;
    nl();
    let o : Object <- 5 in case o of i : Int => n(i + 1); s : String => n(0); esac;
    let o : Object <- new A, a : A in { t(isvoid o).t(isvoid a); out_string(o.type_name()); };
    nl();
    names();
  } };
};
