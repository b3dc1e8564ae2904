class Main inherits IO {
  main() : Object { let text : String <- "a" in while true loop text <- text.concat(text) pool };
};
