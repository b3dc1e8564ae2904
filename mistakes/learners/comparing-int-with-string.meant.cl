class Quiz inherits IO {
  score : Int <- 0;
  ask(q : String, answer : Int) : Object {
    {
      out_string(q);
      if in_int() = answer then score <- score + 1 else score fi;
    }
  };
  result() : Object { out_int(score) };
};
class Main {
  q : Quiz <- new Quiz;
  main() : Object { { q.ask("6 * 7? ", 42); q.ask("9 + 8? ", 17); q.result(); } };
};
