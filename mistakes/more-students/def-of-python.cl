class Main inherits IO {
  def square(n : Int) : Int {
    n * n
  };
  main() : Object {
    out_int(square(4))
  };
};
