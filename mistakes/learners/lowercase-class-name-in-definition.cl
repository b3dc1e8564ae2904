class matrix {
  a : Int; b : Int; c : Int; d : Int;
  fill(p : Int, q : Int, r : Int, s : Int) : Object {
    { a <- p; b <- q; c <- r; d <- s; }
  };
  det() : Int { a * d - b * c };
};
class Main inherits IO {
  m : Matrix <- new Matrix;
  main() : Object {
    { m.fill(1, 2, 3, 4); out_int(m.det()); }
  };
};
