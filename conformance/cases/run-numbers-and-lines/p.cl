-- in_int and in_string in turn, as values in expressions and by other objects. An argument is read before the receiver.
class Reader inherits IO { sum(n : Int) : Int { if n = 0 then 0 else in_int() + sum(n - 1) fi }; };
class Main inherits IO {
  main() : Object {
    let n : Int <- in_int() in {
      out_string("sum ").out_int((new Reader).sum(n)).out_string("\n");
      out_string(in_string().concat(", ").concat(in_string())).out_string("\n");
      out_int(in_int() - in_int()).out_string("\n");
      let line : String <- in_string() in while not line = "" loop { out_string(line.substr(0, 1)); line <- in_string(); } pool;
      out_string("\n").out_string((new IO).in_string()).out_int((new IO).in_int()).out_string("\n");
    }
  };
};
