class Parrot {
  phrase : String <- "hello";
  teach(s : String) : String { phrase <- s };
  talk() : String { phrase };
};
class Main inherits IO {
  p : Parrot <- new Parrot;
  main() : Object {
    {
      p.teach("five");
      out_string(p.talk());
    }
  };
};
