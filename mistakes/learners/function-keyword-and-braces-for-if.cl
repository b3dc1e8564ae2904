class Tax {
  function owed(income : Int) : Int {
    if income < 1000 { 0; } else (income - 1000) / 4 fi
  };
};
class Main inherits IO {
  main() : Object { out_int((new Tax).owed(in_int())) };
};
