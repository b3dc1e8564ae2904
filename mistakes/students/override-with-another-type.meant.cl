class Animal {
  age : Int;
  grow(years : Int) : Int { age <- age + years };
};
class Dog inherits Animal {
  grow(years : Int) : Int { age + 7 };
};
class Main inherits IO {
  main() : Object { out_int((new Dog).grow(1)) };
};
