-- The most objects and numbers for which the heap of 32,768 KiB must suffice.
class Main inherits IO {
  fill(n : Int) : Int { { while 0 < n loop { new Object; n <- n - 1; } pool; n; } };
  main() : Object { out_int(fill(932065)) };
};
