class Cart inherits IO {
  total : Int <- 0;
  checkout(price : Int) : Object {
    {
      (let tax : Int <- price / 5 in { total <- total + price + tax;
      out_int(tax); });
      out_int(total);
    }
  };
};
class Main { main() : Object { (new Cart).checkout(50) }; };
