class Animal inherts IO {
  sound() : String { "..." };
  speak() : Object { out_string(sound()) };
};
class Dog inherits Animal { sound() : String { "woof\n" }; };
class Cat inherits Animal { sound() : String { "meow\n" }; };
class Main {
  main() : Object { { (new Dog).speak(); (new Cat).speak(); } };
};
