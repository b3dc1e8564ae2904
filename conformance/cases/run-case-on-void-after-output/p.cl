class Main inherits IO {
  o : Main;
  main() : Object {
    case { out_string("value\n"); o; } of x : Object => out_string("branch\n"); esac
  };
};
