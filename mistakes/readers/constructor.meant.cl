class P {
  x : Int;
  init(v : Int) : P { { x <- v; self; } };
};
class Main { main() : Object { 0 }; };
