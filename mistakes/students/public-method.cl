class Counter {
  count : Int;
  public next() : Int {
    count <- count + 1
  };
};
class Main inherits IO {
  main() : Object { out_int((new Counter).next()) };
};
