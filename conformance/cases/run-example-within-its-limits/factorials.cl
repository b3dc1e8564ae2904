-- Factorials and powers that no Int can hold: a natural number is a list of its digits, the lowest first.
-- Sums and products go digit by digit with a carry, so that no Int in them is ever great.

-- The number 0, and the end of the digits of each other number.
class Natural inherits IO {
  digit() : Int { 0 };
  higher() : Natural { self };
  length() : Int { 0 };

  -- Ten times this number, and a digit. No number begins with a zero, so 0 stays what it is.
  with(digit : Int) : Natural {
    if digit = 0 then self else (new Digits).make(digit, self) fi
  };

  -- This number times a small one, and a carry added.
  times_and(factor : Int, carry : Int) : Natural {
    if carry = 0 then self else
    times_and(factor, carry / 10).with(carry - carry / 10 * 10) fi
  };

  -- The sum of this number, another and a carry.
  plus_and(other : Natural, carry : Int) : Natural { other.times_and(1, carry) };

  times(factor : Int) : Natural { times_and(factor, 0) };
  plus(other : Natural) : Natural { plus_and(other, 0) };

  write() : Object { out_string("0") };
  write_digits() : Object { self };
};

class Digits inherits Natural {
  digit : Int;
  higher : Natural;

  make(lowest : Int, others : Natural) : SELF_TYPE {
    {
      digit <- lowest;
      higher <- others;
      self;
    }
  };

  digit() : Int { digit };
  higher() : Natural { higher };
  length() : Int { 1 + higher.length() };

  with(digit : Int) : Natural { (new Digits).make(digit, self) };

  times_and(factor : Int, carry : Int) : Natural {
    let product : Int <- digit * factor + carry in
      higher.times_and(factor, product / 10).with(product - product / 10 * 10)
  };

  plus_and(other : Natural, carry : Int) : Natural {
    let sum : Int <- digit + other.digit() + carry in
      higher.plus_and(other.higher(), sum / 10).with(sum - sum / 10 * 10)
  };

  write() : Object { write_digits() };

  write_digits() : Object {
    {
      higher.write_digits();
      out_int(digit);
    }
  };
};

class Main inherits IO {
  one : Natural <- (new Natural).with(1);

  factorials(last : Int) : Object {
    let number : Int <- 1, product : Natural <- one in
      while number <= last loop {
        product <- product.times(number);
        out_int(number).out_string("! = ");
        product.write();
        out_string("\n");
        number <- number + 1;
      } pool
  };

  power(base : Int, exponent : Int) : Natural {
    if exponent = 0 then one else power(base, exponent - 1).times(base) fi
  };

  -- The sum of two numbers of Fibonacci is the next one.
  fibonacci(count : Int) : Natural {
    let last : Natural <- new Natural, this : Natural <- one, next : Natural in {
      while 1 < count loop {
        next <- last.plus(this);
        last <- this;
        this <- next;
        count <- count - 1;
      } pool;
      this;
    }
  };

  show(label : String, number : Natural) : Object {
    {
      out_string(label);
      number.write();
      out_string(", of ").out_int(number.length()).out_string(" digits\n");
    }
  };

  main() : Object {
    {
      factorials(25);
      show("2 to the power of 100 is ", power(2, 100));
      show("The 150th number of Fibonacci is ", fibonacci(150));
    }
  };
};
