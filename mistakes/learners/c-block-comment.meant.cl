(* A bus with a limited number of seats. *)
class Bus {
  seats : Int <- 30;
  taken : Int <- 0;
  board(n : Int) : Bool {
    if taken + n <= seats then { taken <- taken + n; true; } else false fi
  };
};
class Main inherits IO {
  main() : Object {
    if (new Bus).board(31) then out_string("ok") else out_string("full") fi
  };
};
