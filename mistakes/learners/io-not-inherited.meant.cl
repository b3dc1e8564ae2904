class Reporter inherits IO {
  hits : Int <- 0;
  hit() : Int { hits <- hits + 1 };
  report() : Object { { out_string("hits: "); out_int(hits); } };
};
class Main {
  r : Reporter <- new Reporter;
  main() : Object { { r.hit(); r.hit(); r.report(); } };
};
