class Main inherits IO {
  main() : Object { if in_int() = 5 then 1 else 2 fi };
};
