class Mixer {
  blend(red : Int, green : Int, blue : Int) : Int {
    (red + green + blue) / 3
  };
};
class Main inherits IO {
  main() : Object {
    let grey : Int <- (new Mixer).blend(120, 30, 60) in {
      out_string("grey level ");
      out_int(grey);
      out_string("\n");
    }
  };
};
