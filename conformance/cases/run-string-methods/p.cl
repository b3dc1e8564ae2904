-- length, concat and substr, with results of each length from 0 to 10, and of 32,768 and 32,769 bytes.
class Main inherits IO {
  grow(s : String, times : Int) : String { if times = 0 then s else grow(s.concat(s), times - 1) fi };
  t(v : Bool) : SELF_TYPE { out_string(if v then "t" else "f" fi) };
  long() : Object {
    let a : String <- grow("abcdefgh", 12), b : String <- grow("abcd", 13), c : String <- a.concat("!") in {
      out_int(a.length()).out_string(" ").out_int(c.length()).out_string("\n");
      t(a = b).t(a = c).t(c.substr(0, 32768) = a).t(c.substr(32768, 1) = "!").t(c.substr(1, 32768) = a).t(c.substr(32769, 0) = "");
      out_string("\n");
      out_string(a.substr(0, 63)).out_string("\n").out_string(a.substr(0, 64)).out_string("\n");
      out_string(a.substr(0, 65)).out_string("\n");
      out_string(a.substr(32768 - 200, 200)).out_string("\n");
      let line : String, i : Int in {
        while i < 500 loop { line <- line.concat("x"); i <- i + 1; } pool;
        out_string(line).out_int(line.length()).out_string("\n");
      };
    }
  };
  s(x : String) : SELF_TYPE { out_string("[").out_string(x).out_string("]").out_int(x.length()).out_string("\n") };
  main() : Object {
    let ten : String <- "0123456789", empty : String, i : Int in {
      s("").s("a").s("ab").s(empty).s(new String);
      s("".concat("")).s("a".concat("")).s("".concat("a")).s("ab".concat("cd")).s("ab".concat("cd").concat("ef").concat("gh"));
      while i <= 10 loop {
        s(ten.substr(0, i)).s(ten.substr(i, 0)).s(ten.substr(i, 10 - i)).s(ten.substr(0, i).concat(ten.substr(i, 10 - i)));
        i <- i + 1;
      } pool;
      i <- 0;
      while i < 10 loop { out_string(ten.substr(9 - i, 1)); i <- i + 1; } pool;
      out_string("\n");
      s("".substr(0, 0)).s("a".substr(1, 0)).s("a".substr(0, 1)).s(empty.concat(empty));
      s("a\nb".substr(1, 1)).s("a\nb".concat("\n"));
      s(ten.substr(2, 6).substr(1, 4).substr(1, 2)).s(ten);
      let t : String <- ten, u : String <- t.concat("x") in s(t).s(u).s(t.concat(t));
      out_int("abc".length() + "".length() * 100 - "four".length()).out_string("\n");
      out_int("12".concat("345").length()).out_string("\n");
      out_int("\n".length()).out_int("\\".length()).out_int("\"".length()).out_int("a\
b".length()).out_string("\n");
      long();
    }
  };
};
