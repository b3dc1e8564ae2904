class L { next : L; atEnd() : Bool { isvoid next }; };
class Main { main() : Object { 0 }; };
