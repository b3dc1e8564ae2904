class Banner inherits IO {
  line() : Object { out_string("----------") };
  print(s : String) : Object {
    { line(); out_string(s); line(); }
  };
};
class Main {
  main() : Object { (new Banner).print("\nSALE\n") };
};
