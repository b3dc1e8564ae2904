class Main inherits IO {
  o : Main;
  main() : Object {
    case { out_string("value\n"); 1; } of x : String => out_string("branch\n"); esac
  };
};
