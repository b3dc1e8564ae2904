-- Polynomials in x with whole coefficients: sums, products, derivatives and values.
-- Each is 0, or x times another one and a number: 2x^2 + 3 is x(x(2) + 0) + 3.

-- The polynomial 0.
class Polynomial inherits IO {
  is_zero() : Bool { true };
  number() : Int { 0 };
  rest() : Polynomial { self };

  -- x times this polynomial, and a number. 0 stays 0, so that none begins with zeros.
  with(constant : Int) : Polynomial {
    if constant = 0 then self else (new Term).make(constant, self) fi
  };

  plus(other : Polynomial) : Polynomial { other };
  times_number(factor : Int) : Polynomial { self };
  times(other : Polynomial) : Polynomial { self };

  power(exponent : Int) : Polynomial {
    if exponent = 0 then (new Polynomial).with(1) else times(power(exponent - 1)) fi
  };

  derivative() : Polynomial { self };
  at(x : Int) : Int { 0 };

  write() : Object { out_string("0") };
  write_terms(power : Int) : Object { self };
};

class Term inherits Polynomial {
  number : Int;
  rest : Polynomial;

  make(constant : Int, higher : Polynomial) : SELF_TYPE {
    {
      number <- constant;
      rest <- higher;
      self;
    }
  };

  is_zero() : Bool { false };
  number() : Int { number };
  rest() : Polynomial { rest };
  with(constant : Int) : Polynomial { (new Term).make(constant, self) };

  plus(other : Polynomial) : Polynomial { rest.plus(other.rest()).with(number + other.number()) };

  times_number(factor : Int) : Polynomial {
    if factor = 0 then new Polynomial else rest.times_number(factor).with(factor * number) fi
  };

  times(other : Polynomial) : Polynomial {
    rest.times(other).with(0).plus(other.times_number(number))
  };

  derivative() : Polynomial { rest.derivative().with(0).plus(rest) };
  at(x : Int) : Int { x * rest.at(x) + number };

  -- The terms stand from the highest power down, and only where they are not 0.
  write() : Object { write_terms(0) };

  write_terms(power : Int) : Object {
    {
      rest.write_terms(power + 1);
      if number = 0 then self else {
        write_sign();
        write_term(if number < 0 then ~number else number fi, power);
      } fi;
    }
  };

  write_sign() : Object {
    if rest.is_zero() then
      if number < 0 then out_string("-") else self fi
    else
      out_string(if number < 0 then " - " else " + " fi)
    fi
  };

  write_term(size : Int, power : Int) : Object {
    {
      if power = 0 then out_int(size) else
      if size = 1 then out_string("x") else
      out_int(size).out_string("x") fi fi;
      if 1 < power then out_string("^").out_int(power) else self fi;
    }
  };
};

class Main inherits IO {
  show(label : String, polynomial : Polynomial) : Object {
    {
      out_string(label).out_string(" = ");
      polynomial.write();
      out_string("\n");
    }
  };

  show_values(label : String, polynomial : Polynomial) : Object {
    let x : Int <- ~2 in
      while x <= 3 loop {
        out_string(label).out_string("(").out_int(x).out_string(") = ").out_int(polynomial.at(x)).out_string("\n");
        x <- x + 1;
      } pool
  };

  main() : Object {
    let zero : Polynomial <- new Polynomial,
        p : Polynomial <- zero.with(1).with(~3).with(2),
        q : Polynomial <- zero.with(~1).with(0).with(3).with(5) in {
      show("p", p);
      show("q", q);
      show("p + q", p.plus(q));
      show("p - p", p.plus(p.times_number(~1)));
      show("p * q", p.times(q));
      show("p'", p.derivative());
      show("q'", q.derivative());
      show("(x + 1)^6", zero.with(1).with(1).power(6));
      show_values("p", p);
    }
  };
};
