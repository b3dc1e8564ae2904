class Main inherits IO {
  length : Int <- "abc".length();
  concat : String <- "abc".concat("def");
  substr : String <- "abc".substr(1, 2);
  copied : String <- "abc".copy();
  name : String <- 1.type_name();
  truth : Bool <- true.copy();
  aborted : Object <- true.abort();
  line : String <- in_string();
  number : Int <- in_int();
  main() : Main { out_string("a").out_int(1).copy() };
};
