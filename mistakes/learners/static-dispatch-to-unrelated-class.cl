class Instrument { play() : String { "plonk" }; };
class Guitar inherits Instrument { play() : String { "twang" }; };
class Drum { play() : String { "boom" }; };
class Main inherits IO {
  main() : Object {
    let g : Guitar <- new Guitar, d : Drum <- new Drum in {
      out_string(g@Drum.play());
      out_string(d.play());
    }
  };
};
