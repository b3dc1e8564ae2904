class Main inherits Base { main() : Object { show() }; };
class MAin { };
class Base inherits IO { show() : Object { out_string("no main\n") }; };
