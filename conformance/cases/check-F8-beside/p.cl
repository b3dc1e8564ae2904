class Main { main : Int; main(x : Int) : Object { 1 }; main() : Object { 1 }; };
