class Main {
  greeting : String <- "Hello";
  greet(name : String) : Object {
    {
      out_string(greeting.concat(", "));
      out_string(name.concat("\n"));
    }
  };
  main() : Object { greet("world") };
};
