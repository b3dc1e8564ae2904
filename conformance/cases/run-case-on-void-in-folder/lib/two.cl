-- The second file.

class Two inherits IO {
  run(a : Int, b : Int) : Object { {
    out_string("two\n");
    out_int(case let t : Two in t of
      t : Two => 1; esac);
  } };
};
