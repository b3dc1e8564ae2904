class A inherits IO {
  show() : Object { out_string("no main\n") };
};

class B inherits A { main() : Object { show() }; };
