-- The second file.

class Two inherits IO {
  run(a : Int, b : Int) : Object { {
    out_string("two\n");
    out_int(a
      / b);
  } };
};
