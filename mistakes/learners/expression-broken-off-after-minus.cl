class Thermometer {
  celsius : Int <- 21;
  warm(d : Int) : Int { celsius <- celsius + d };
  cool(d : Int) : Int { celsius <- celsius -  };
  fahrenheit() : Int { celsius * 9 / 5 + 32 };
};
class Main inherits IO {
  t : Thermometer <- new Thermometer;
  main() : Object {
    {
      t.warm(4);
      t.cool(9);
      out_int(t.fahrenheit());
    }
  };
};
