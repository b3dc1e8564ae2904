-- `=` over values of each kind, also where both are declared Object.
class A { x : Int; };
class B inherits A { };
class Main inherits IO {
  t(v : Bool) : SELF_TYPE { out_string(if v then "t" else "f" fi) };
  nl() : Object { out_string("\n") };
  same(x : Object, y : Object) : SELF_TYPE { t(x = y) };
  nothing : Object;
  nobody : A;
  text : String;
  number : Int;
  truth : Bool;
  main() : Object {
    let a : A <- new A, b : B <- new B, c : A <- a in {
      t(1 = 1); t(1 = 2); t(0 = ~0); t(1 + 1 = 2); t(number = 0); t(new Int = 0);
      nl();
      t(true = true); t(true = false); t(false = false); t(truth = false); t((1 < 2) = not false); t(new Bool = false);
      nl();
      t("" = ""); t("a" = "a"); t("a" = "b"); t("a" = "A"); t("a" = ""); t("abc" = "abcd"); t("abcd" = "abc"); t("abcd" = "abce");
      t("ab".concat("cd") = "abcd"); t("xabcdx".substr(1, 4) = "abcd"); t(text = ""); t(new String = ""); t("a\n" = "a\t");
      t("abcdefgh" = "abcdefgh"); t("abcdefgh" = "abcdefgi"); t("abcdefgh" = "bbcdefgh"); t("é" = "é"); t("é" = "è");
      nl();
      t(a = a); t(a = c); t(a = b); t(a = new A); t(new A = new A); t(a = a.copy()); t(self = self); t(b = a);
      nl();
      t(nothing = nothing); t(nothing = nobody); t(nobody = nothing); t(a = nobody); t(nobody = a);
          t(nothing = (while false loop 0 pool));
      nl();
      same(1, 1).same(1, 2).same("a", "a").same("a", "b").same(true, true).same(true, false).same(a, c).same(a, b).same(nothing, nobody);
      nl();
      same(0, false).same(0, "").same(false, "").same(0, nothing).same(false, nothing).same("", nothing).same(1, true).same(1, "1");
      same(a, 0).same(0, a).same(a, "").same("", a).same(a, true).same(true, a).same(nothing, 0).same(nothing, "").same("A",
          a.type_name());
      nl();
      same(1.copy(), 1).same("x".copy(), "x").same(true.copy(), true).same(a.copy(), a).same(a.copy(), a.copy());
      same(a.type_name(), b.type_name()).same(a.type_name(), "A");
      nl();
    }
  };
};
