class Cylinder {
  volume(r : Int, h : Int) : Int {
    let pi100 : Int = 314 in
      pi100 * r * r * h / 100
  };
};
class Main inherits IO {
  main() : Object { out_int((new Cylinder).volume(2, 10)) };
};
