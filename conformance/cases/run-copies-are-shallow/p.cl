-- A copy has locations of its own, and shares the objects in them.
class Box inherits IO {
  n : Int; name : String; inner : Box; flag : Bool;
  set(x : Int, s : String) : SELF_TYPE { { n <- x; name <- s; flag <- not flag; self; } };
  put(b : Box) : SELF_TYPE { { inner <- b; self; } };
  inner() : Box { inner };
  show() : SELF_TYPE { {
    out_string(name).out_int(n).out_string(if flag then "+" else "-" fi);
    if isvoid inner then self else { out_string(" > "); inner.show(); self; } fi;
  } };
};
class Red inherits Box {
  extra : Int <- 7;
  show() : SELF_TYPE { { self@Box.show(); out_string(" red").out_int(extra); } };
  grow() : SELF_TYPE { { extra <- extra + 1; self; } };
};
class Main inherits IO {
  line(b : Box) : Object { { b.show(); out_string("\n"); } };
  main() : Object {
    let a : Box <- (new Box).set(1, "a").put((new Red).set(2, "in")), b : Box <- a.copy() in {
      line(a); line(b);
      b.set(3, "b");
      line(a); line(b);
      a.inner().set(4, "both");
      line(a); line(b);
      b.put(a);
      line(b);
      out_string(if a = b then "same\n" else "other\n" fi);
      out_string(if b.inner() = a then "same\n" else "other\n" fi);
      let r : Red <- (new Red).grow().copy().grow(), s : Red <- r.copy() in {
        s.grow(); line(r); line(s);
        out_string(s.copy().copy().type_name()).out_string("\n");
      };
      let o : Object <- (new Red).copy() in out_string(o.type_name()).out_string("\n");
      let i : Int <- 5, j : Int <- i.copy() in { j <- j + 1; out_int(i).out_int(j).out_string("\n"); };
      out_string("text".copy()).out_string("".copy()).out_string(if true.copy() then "\n" else "?" fi);
      out_int(case 5.copy() of i : Int => i; esac).out_string("\n");
      out_string(a@Object.copy().type_name());
      out_string(self.copy().type_name()).out_string((new Object).copy().type_name()).out_string("\n");
    }
  };
};
