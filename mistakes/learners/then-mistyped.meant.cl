class Grade inherits IO {
  points : Int;
  mark(p : Int) : String {
    if 89 < p then "A" else
    if 74 < p then "B" else
    if 59 < p then "C" else "F" fi fi fi
  };
  report() : Object {
    { points <- in_int(); out_string(mark(points)); }
  };
};
class Main { main() : Object { (new Grade).report() }; };
