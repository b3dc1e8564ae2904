-- The branch of the closest class above, whatever the order of the branches; the variable of a branch; case within case.
class Node {
  item : Object; next : Node;
  make(i : Object, n : Node) : SELF_TYPE { { item <- i; next <- n; self; } };
  item() : Object { item };
  next() : Node { next };
};
class A inherits IO { };
class B inherits A { };
class C inherits B { };
class D inherits C { };
class Main inherits IO {
  x : Int <- 1;
  size(o : Object) : Int {
    case o of
      i : Int => i;
      s : String => s.length();
      b : Bool => if b then 1 else 0 fi;
      n : Node => size(n.item()) + (if isvoid n.next() then 0 else size(n.next()) fi);
    esac
  };
  variables() : Object {
    let o : Object <- 4 in {
      case o of x : Int => { x <- x + 1; out_int(x); }; esac;
      out_int(x);
      case o of i : Int => { o <- "text"; out_int(i); case o of s : String => out_string(s); i : Int => out_int(i + 100); esac; }; esac;
      out_string("\n");
      out_int(case o of s : String => s.length(); esac + case 5 of i : Int => i * 2; esac);
      out_string("\n");
      out_int(case case 3 of i : Int => "abc"; esac of s : String => s.length() + 10; esac);
      out_string("\n");
      let n : Node in {
        n <- (new Node).make(10, (new Node).make((new Node).make(5, n), n));
        out_int(size((new Node).make("abc", (new Node).make(true, n))));
      };
      out_string("\n");
      case self of m : Main => m.out_string("Main\n"); o : Object => abort(); esac;
      out_string((case 1 of i : Int => new Main; esac).type_name()).out_string("\n");
      let i : Int in while i < 4 loop {
        case if i / 2 * 2 = i then i else "odd " fi of n : Int => out_int(n).out_string(" "); s : String => out_string(s); esac;
        i <- i + 1;
      } pool;
      out_string("\n");
    }
  };
  upward(x : Object) : String { case x of d : D => "D"; b : B => "B"; a : A => "A"; o : Object => "Object"; esac };
  downward(x : Object) : String { case x of o : Object => "Object"; a : A => "A"; b : B => "B"; d : D => "D"; esac };
  mixed(x : Object) : String { case x of a : A => "A"; d : D => "D"; o : Object => "Object"; b : B => "B"; esac };
  basic(x : Object) : String { case x of s : String => "String"; io : IO => "IO"; o : Object => "Object"; i : Int => "Int";
      m : Main => "Main"; b : Bool => "Bool"; esac };
  only(x : Object) : String { case x of any : Object => any.type_name(); esac };
  all(x : Object) : Object { {
    out_string(only(x)).out_string(": ").out_string(upward(x)).out_string(" ").out_string(downward(x)).out_string(" ");
    out_string(mixed(x)).out_string(" ").out_string(basic(x)).out_string("\n");
  } };
  main() : Object { {
    all(new A); all(new B); all(new C); all(new D);
    all(1); all("s"); all(true); all(new Object); all(new IO); all(self); all(new Int); all(new String); all(new Bool);
    variables();
  } };
};
