class Queue {
  size : Int <- 0;
  served : Int <- 0;
  join() : Int { size <- size + 1 };
  serve() : Int {
    {
      size <- size - 1;
      served <- served + 1;
    }
  };
};
class Main inherits IO {
  q : Queue <- new Queue;
  main() : Object { { q.join(); q.join(); out_int(q.serve()); } };
};
