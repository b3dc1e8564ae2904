class Main inherits IO {
  -- the number of calls
  calls : Int;
  call() : Int { calls <- calls + 1 };
  main() : Object {
    {
      call();
      out_int(call());
    }
  };
};
