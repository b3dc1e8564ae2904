class Seasons inherits IO {
  name(m : Int) : String {
    begin
      if m <= 3 then "winter" else
      if m <= 6 then "spring" else
      if m <= 9 then "summer" else "autumn" fi fi fi;
    end
  };
};
class Main inherits IO {
  main() : Object { out_string((new Seasons).name(in_int())) };
};
