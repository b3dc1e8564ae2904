class Book {
  title : String;
  String : author;
  pages : Int;
  init(t : String, a : String, p : Int) : Book {
    { title <- t; author <- a; pages <- p; self; }
  };
  label() : String { title.concat(" by ").concat(author) };
};
class Main inherits IO {
  main() : Object {
    out_string((new Book).init("Emma", "Austen", 474).label())
  };
};
