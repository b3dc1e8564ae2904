class Red { code() : Int { 1 }; };
class Green { code() : Int { 2 }; };
class Red { code() : Int { 3 }; };
class Main inherits IO {
  main() : Object {
    let r : Red <- new Red, g : Green <- new Green in
      out_int(r.code() * g.code())
  };
};
