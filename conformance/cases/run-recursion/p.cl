-- Functions that call themselves and each other.
class Hanoi inherits IO {
  moves : Int;
  move(n : Int, a : String, b : String, c : String) : SELF_TYPE {
    if n = 0 then self
    else {
      move(n - 1, a, c, b);
      moves <- moves + 1;
      if n = 3 then out_string(a).out_string(" to ").out_string(c).out_string("\n") else self fi;
      move(n - 1, b, a, c);
    } fi
  };
  moves() : Int { moves };
};
class Main inherits IO {
  n(x : Int) : Object { out_int(x).out_string("\n") };
  fibonacci(n : Int) : Int { if n < 2 then n else fibonacci(n - 1) + fibonacci(n - 2) fi };
  ackermann(m : Int, n : Int) : Int {
    if m = 0 then n + 1 else if n = 0 then ackermann(m - 1, 1) else ackermann(m - 1, ackermann(m, n - 1)) fi fi
  };
  factorial(n : Int) : Int { if n = 0 then 1 else n * factorial(n - 1) fi };
  even(n : Int) : Bool { if n = 0 then true else odd(n - 1) fi };
  odd(n : Int) : Bool { if n = 0 then false else even(n - 1) fi };
  divisor(a : Int, b : Int) : Int { if b = 0 then a else divisor(b, a - a / b * b) fi };
  power(x : Int, n : Int) : Int {
    if n = 0 then 1 else
      let half : Int <- power(x, n / 2) in if n / 2 * 2 = n then half * half else half * half * x fi
    fi
  };
  digits(n : Int) : String { if n < 10 then "0123456789".substr(n, 1) else digits(n / 10).concat(digits(n - n / 10 * 10)) fi };
  reverse(s : String) : String { if s = "" then "" else reverse(s.substr(1, s.length() - 1)).concat(s.substr(0, 1)) fi };
  main() : Object { {
    n(fibonacci(20));
    n(ackermann(0, 0)); n(ackermann(1, 10)); n(ackermann(2, 9)); n(ackermann(3, 4));
    n(factorial(12));
    out_string(if even(1000) then "even\n" else "odd\n" fi);
    out_string(if odd(1000) then "odd\n" else "even\n" fi);
    n(divisor(1071, 462)); n(divisor(2147483647, 2147483646));
    n(power(2, 30)); n(power(~3, 19)); n(power(7, 0));
    out_string(digits(2147483647)).out_string("\n").out_string(reverse("stressed")).out_string("\n");
    let h : Hanoi <- new Hanoi in n(h.move(4, "A", "B", "C").moves());
  } };
};
