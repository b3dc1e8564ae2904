-- out_int and out_string: numbers of each number of digits, strings of each number of bytes around 64, and their results.
class Loud inherits IO { out_string(s : String) : SELF_TYPE { { self@IO.out_string(s); self@IO.out_string("!"); } }; };
class Main inherits IO {
  both(n : Int) : Object { out_int(n).out_string(" ").out_int(~n).out_string("\n") };
  text(n : Int) : String {
    let s : String, i : Int in {
      while i < n loop { s <- s.concat("0123456789".substr(i - i / 10 * 10, 1)); i <- i + 1; } pool;
      s;
    }
  };
  main() : Object { {
    let n : Int <- 1, i : Int in while i < 10 loop { both(n - 1); both(n); i <- i + 1; if i < 10 then n <- n * 10 else 0 fi; } pool;
    both(2147483646); both(2147483647); out_int(~2147483647 - 1).out_string("\n");
    both(007); both(0000000002147483647);
    let i : Int <- 61 in while i <= 67 loop { out_string(text(i)).out_string("\n"); i <- i + 1; } pool;
    let i : Int <- 127 in while i <= 129 loop { out_string(text(i)).out_string("\n"); i <- i + 1; } pool;
    out_string("").out_string("").out_int(0).out_string("").out_string("\n");
    (new IO).out_string("by IO\n").out_int(1).out_string("\n");
    (new Loud).out_string("loud").out_int(1).out_string("\n");
    (new Loud)@IO.out_string("not loud\n");
    out_string(out_string("inner ").type_name()).out_string("\n");
  } };
};
