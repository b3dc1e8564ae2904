class Search {
  target : Int <- 37;
  guess(low : Int, high : Int) : Int {
    let mid : Int <- (low + high) / 2 in
      if mid = target then mid else
      if mid <= target then guess(mid + 1, high)
      else guess(low, mid - 1) fi fi
  };
};
class Main inherits IO {
  main() : Object { out_int((new Search).guess(0, 100)) };
};
