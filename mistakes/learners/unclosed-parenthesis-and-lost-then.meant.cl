class Bmi inherits IO {
  index(kg : Int, cm : Int) : Int { kg * 10000 / (cm * cm) };
  judge(i : Int) : Object {
    if i < 19 then out_string("low") else out_string("fine") fi
  };
};
class Main {
  b : Bmi <- new Bmi;
  main() : Object { b.judge(b.index(70, 180)) };
};
