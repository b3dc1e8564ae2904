class Main { main() : Object { (new A).hi() }; };
