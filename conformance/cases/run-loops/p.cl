-- Loops of no turn, one and many; within each other; with parts of all kinds as test and body.
class Main inherits IO {
  i : Int; j : Int; log : String;
  note(s : String) : Bool { { log <- log.concat(s); true; } };
  sum() : Int { let x : Int <- 10, s : Int in { while 0 < x loop { s <- s + x; x <- x - 1; } pool; s; } };
  main() : Object { {
    out_int(sum()).out_string("\n");
    while false loop out_string("never\n") pool;
    while i < 1 loop { out_string("once\n"); i <- i + 1; } pool;
    i <- 0;
    while i < 4 loop {
      j <- 0;
      while j <= i loop { out_int(i * j).out_string(" "); j <- j + 1; } pool;
      out_string("\n");
      i <- i + 1;
    } pool;
    i <- 5;
    while { note("t"); not i = 0; } loop { note("b"); i <- i - 1; } pool;
    out_string(log).out_string("\n");
    while (i <- i + 1) < 10 loop out_int(i) pool;
    out_string("\n");
    let n : Int <- 27, turns : Int in {
      while not n = 1 loop {
        n <- if n / 2 * 2 = n then n / 2 else 3 * n + 1 fi;
        turns <- turns + 1;
      } pool;
      out_int(turns).out_string("\n");
    };
    let n : Int in {
      while if n < 100000 then true else false fi loop n <- n + 1 pool;
      out_int(n).out_string("\n");
    };
    out_string(if isvoid (while false loop new Object pool) then "void\n" else "object\n" fi);
    case (let o : Object <- while i < 12 loop i <- i + 1 pool in if isvoid o then i else o fi) of
      n : Int => out_int(n);
      o : Object => out_string("?");
    esac;
    out_string("\n");
  } };
};
