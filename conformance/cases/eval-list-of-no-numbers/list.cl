class List inherits IO {
  head : Int;
  tail : List;
  init(h : Int, t : List) : SELF_TYPE { { head <- h; tail <- t; self; } };
  sum() : Int { if isvoid tail then head else head + tail.sum() fi };
  show() : SELF_TYPE {
    {
      out_int(head);
      out_string("\n");
      if isvoid tail then self else { tail.show(); self; } fi;
    }
  };
};
