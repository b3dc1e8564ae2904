class Discount {
  apply(price : Int) : Int { price };
};
class Sale inherits Discount {
  rate : Int <- 20;
  apply(price : Int) : Int { price - price * rate / 100 };
};
class Main inherits IO {
  main() : Object {
    let d : Discount <- new Sale in out_int(d.apply(150))
  };
};
