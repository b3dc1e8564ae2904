-- The list is named before the file with its items.
class Shapes {
  head : Shape; tail : Shapes;
  add(s : Shape) : Shapes {
    if isvoid head then { head <- s; self; }
    else { if isvoid tail then tail <- new Shapes else tail fi; tail.add(s); self; } fi
  };
  names() : String {
    if isvoid head then "" else if isvoid tail then head.name()
    else head.name().concat(" ").concat(tail.names()) fi fi
  };
  area() : Int { if isvoid head then 0 else head.area() + (if isvoid tail then 0 else tail.area() fi) fi };
};
class Writer inherits IO {
  line(s : String) : Object { out_string(s).out_string("\n") };
  n(x : Int) : Object { out_int(x).out_string("\n") };
};
