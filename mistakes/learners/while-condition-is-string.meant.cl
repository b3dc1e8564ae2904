class Echo inherits IO {
  line : String;
  run() : Object {
    {
      line <- in_string();
      while not line = "" loop {
        out_string(line);
        line <- in_string();
      } pool;
    }
  };
};
class Main { main() : Object { (new Echo).run() }; };
