class Counter {
  count : Int;
  add(n : Int) : Counter {
    {
      count <- count + n;
      this;
    }
  };
  count() : Int { count };
};
class Main inherits IO {
  main() : Object { out_int((new Counter).add(3).count()) };
};
