class Builder {
  parts : Int <- 0;
  add() : SELF_TYPE { { parts <- parts + 1; self; } };
  fresh() : SELF_TYPE { new SELF_TYPE };
  count() : Int { parts };
};
class Main inherits IO {
  main() : Object { out_int((new Builder).add().fresh().add().count()) };
};
