(* Prints the triangular numbers up to a limit.
   The limit is read from the user. *)
class Main inherits IO {
  limit : Int;
  sum : Int <- 0;
  i : Int <- 1;
  main() : Object {
    {
      limit <- in_int();
      while i <= limit loop {
        sum <- sum + i;
        out_int(sum);
        out_string("\n");
        i <- i + 1;
      } pool;
    }
  };
};
