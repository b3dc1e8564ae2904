class Item {
  full : Bool;
  is_full() : Bool { full };
};
class Main inherits IO {
  item : Item <- new Item;
  main() : Object {
    if not item.is_full() then out_string("empty\n") else out_string("full\n") fi
  };
};
