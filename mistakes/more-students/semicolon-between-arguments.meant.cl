class Main inherits IO {
  area(width : Int, height : Int) : Int {
    width * height
  };
  main() : Object {
    out_int(area(3, 4))
  };
};
