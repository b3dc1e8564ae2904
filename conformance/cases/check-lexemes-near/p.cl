class Main inherits IO {
  main() : Object {
    let a1_b : Int <- 007,iF1 : Int<-1,fi_ : Bool<-a1_b<=iF1 in{a1_b<-a1_b-iF1--1
    ;fi_;not(a1_b<~1);}
  };
};
class A__1{x:Int;};
