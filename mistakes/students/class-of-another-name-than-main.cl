class Counter {
  count : Int;
  next() : Int { count <- count + 1 };
};
class Program inherits IO {
  counter : Counter <- new Counter;
  main() : Object { out_int(counter.next()) };
};
