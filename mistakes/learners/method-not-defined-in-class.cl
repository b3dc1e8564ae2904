class Lamp {
  on : Bool <- false;
  toggle() : Bool { on <- not on };
  lit() : Bool { on };
};
class Main inherits IO {
  l : Lamp <- new Lamp;
  main() : Object {
    {
      l.switch();
      if l.lit() then out_string("bright\n") else out_string("dark\n") fi;
    }
  };
};
