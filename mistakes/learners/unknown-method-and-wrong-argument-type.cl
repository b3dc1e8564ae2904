class Parrot {
  phrase : String <- "hello";
  teach(s : String) : String { phrase <- s };
  talk() : String { phrase };
};
class Main inherits IO {
  p : Parrot <- new Parrot;
  main() : Object {
    {
      p.teach(5);
      out_string(p.speak());
    }
  };
};
