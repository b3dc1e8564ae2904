class Counter {
  count : Int;
  add(n : Int) : Int {
    self.count <- count + n
  };
};
class Main inherits IO {
  main() : Object { out_int((new Counter).add(4)) };
};
