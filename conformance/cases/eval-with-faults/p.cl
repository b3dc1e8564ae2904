class Main { x : Int <- true; main() : Object { y }; };
