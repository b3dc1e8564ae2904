-- The deepest recursion for which the stack of 8,192 KiB must suffice.
class Main inherits IO {
  depth(n : Int) : Int { if n = 0 then 0 else 1 + depth(n - 1) fi };
  main() : Object { out_int(depth(131066)) };
};
