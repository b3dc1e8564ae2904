class Main inherits IO {
  main() : Object { {
    out_int(if false then 1 / 0 else 5 fi);
    out_int(if true then 6 else 2147483647 + 1 fi);
    while 2 < 1 loop out_int(1 / 0) pool;
    if 1 = 2 then abort() else out_string("\n") fi;
    out_int(if 1 / 0 = 0 then 7 else 8 fi);
  } };
};
