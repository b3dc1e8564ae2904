class Main inherits IO {
  main() : Object { if if 1 < 2 then 2 < 3 else false fi then out_int(1) else out_int(2) fi };
};
