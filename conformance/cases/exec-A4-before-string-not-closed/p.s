.foo "x
