-- The second file.

class Two inherits IO {
  run(a : Int, b : Int) : Object { {
    out_string("two\n");
    out_int((new C1).f() + (new C62).f());
    out_int((new C57).f());
  } };
};
