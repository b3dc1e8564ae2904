class Tax {
  owed(income : Int) : Int {
    if income < 1000 then 0 else (income - 1000) / 4 fi
  };
};
class Main inherits IO {
  main() : Object { out_int((new Tax).owed(in_int())) };
};
