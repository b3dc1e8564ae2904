class Item { weight() : Int { 1 }; };
class Sword inherits Item {
  weight() : Int { 5 };
  sharpen() : Int { 2 };
};
class Bag inherits IO {
  load : Int <- 0;
  put(i : Item) : Bag {
    {
      load <- load + i.weight();
      case i of
        s : Sword => load <- load + s.sharpen();
        o : Item => load;
      esac;
      out_int(o.weight());
      out_string("\n");
      self;
    }
  };
};
class Main {
  main() : Object { (new Bag).put(new Sword).put(new Item) };
};
