class Main inherits IO {
  word : String;
  main() : Object {
    {
      word <- in_string();
      while not word = "" loop word <- in_string() pool;
    }
  };
};
