class A {
  a : SELF_TYPE <- new SELF_TYPE;
  f() : SELF_TYPE { let x : SELF_TYPE <- self in if isvoid a then x else a fi };
  g(x : A) : A { f() };
  h() : SELF_TYPE { if true then self else new A fi };
};
class B inherits A {
  b : B <- f();
  c : SELF_TYPE <- (new B).f();
  d : A <- if true then self else new Main fi;
  e : Object <- if true then f() else new Main fi;
};
class Main { main() : Object { (new B).f().g(new B).f() }; };
