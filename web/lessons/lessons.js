// The lessons: text, the rules that are shown, a program to try, and tasks with checks, a hint and an answer, which `web/lessons-try` compares.
"use strict";

// A task has words, the program that one begins with, a hint, an answer, and checks, each one of
//   { input, output }      a run over this input writes this, before the last line
//   { fault }              `check` reports this kind of error, and no other one
//   { without }            these words do not occur in the text, except in comments and strings
//   { instructions }       a run takes at most so many instructions, over the input of the first check
//   { shown: true }        the answer is not a program but the output of the program `shown` of the task, which is run to compare
//   { rule }               the answer is the name of this rule of the page of the rules
// A program is written with `cool`, so that a backslash in it is a backslash.
const cool = String.raw;

const LESSONS = [
    {
        id: "first", heading: "A first program",
        text: [
            "A Cool program is a set of classes. It begins with a new object of the class `Main`, and calls its method `main`. The body of a method, " +
            "between braces, is one expression. The value of this expression is the result of the method.",
            "`Main inherits IO` gives the object the methods that write: `out_string` and `out_int`. Both return the object, so a second call can follow.",
            "Several expressions form a block: braces, and a semicolon after each expression.",
        ],
        rules: ["Block"],
        program: cool`class Main inherits IO {
  main() : Object {
    out_string("Hello, ").out_string("world!\n")
  };
};
`,
        tasks: [
            {
                words: "Write the product of 6 and 7, and then a newline.",
                program: cool`class Main inherits IO {
  main() : Object {
    out_int(6)
  };
};
`,
                hint: "The body is one expression: put both calls into a block, or call `out_string` on the result of `out_int`.",
                answer: cool`class Main inherits IO {
  main() : Object { { out_int(6 * 7); out_string("\n"); } };
};
`,
                checks: [{ input: "", output: "42\n" }],
            },
            {
                words: "Read a number, and write the next one.",
                program: cool`class Main inherits IO {
  main() : Object {
    out_int(in_int())
  };
};
`,
                hint: "`in_int()` is an expression of type Int. You can add to it.",
                answer: cool`class Main inherits IO {
  main() : Object { out_int(in_int() + 1) };
};
`,
                checks: [{ input: "41\n", output: "42" }, { input: "-1\n", output: "0" }],
            },
        ],
    },
    {
        id: "expressions", heading: "Expressions and their values",
        text: [
            "`+`, `-`, `*` and `/` compute with numbers of type Int, from -2147483648 to 2147483647. A result outside of these limits ends the program " +
            "with a run-time error, and so does a division by zero. A quotient is cut off towards zero.",
            "`*` and `/` bind tighter than `+` and `-`, and operators of one level group to the left. A minus sign in front of an operand is written `~`.",
        ],
        rules: ["Arith", "Div"],
        program: cool`class Main inherits IO {
  main() : Object { out_int((7 - 2 * 5) / 2) };
};
`,
        tasks: [
            {
                words: "Read a temperature in degrees Celsius, and write it in Fahrenheit: nine fifths of it, plus 32. Cut the fraction off at the end.",
                program: cool`class Main inherits IO {
  main() : Object { out_int(in_int() / 5 * 9 + 32) };
};
`,
                hint: "The quotient is cut off too early. Multiply first.",
                answer: cool`class Main inherits IO {
  main() : Object { out_int(in_int() * 9 / 5 + 32) };
};
`,
                checks: [{ input: "100\n", output: "212" }, { input: "37\n", output: "98" }, { input: "-40\n", output: "-40" }],
            },
            {
                words: "Read a number, and write the remainder of its division by 7. Cool has no operator for that.",
                program: cool`class Main inherits IO {
  main() : Object {
    let n : Int <- in_int() in out_int(n / 7)
  };
};
`,
                hint: "Seven times the quotient is what the division has used up.",
                answer: cool`class Main inherits IO {
  main() : Object {
    let n : Int <- in_int() in out_int(n - n / 7 * 7)
  };
};
`,
                checks: [{ input: "30\n", output: "2" }, { input: "7\n", output: "0" }, { input: "-30\n", output: "-2" }],
            },
        ],
    },
    {
        id: "names", heading: "Names and let",
        text: [
            "`let x : Int <- 1 in e` makes a variable that is known in `e`, and nowhere else. Its initial value does not see it yet. Several variables " +
            "are separated by commas, and each sees those before it.",
            "A variable of an inner `let` hides one of the same name outside. A name means the variable that was declared last around it: first those of " +
            "`let` and `case`, then the formal parameters of the method, then the attributes.",
        ],
        rules: ["Let-Init", "Id"],
        program: cool`class Main inherits IO {
  x : Int <- 1;
  main() : Object {
    let x : Int <- x + 1, y : Int <- x * 10 in { out_int(x); out_string(" "); out_int(y); }
  };
};
`,
        tasks: [
            {
                words: "Swap the values of `a` and `b` before they are written. Do not change the calls that write, nor the initial values.",
                program: cool`class Main inherits IO {
  main() : Object {
    let a : Int <- in_int(), b : Int <- in_int() in {
      out_int(a); out_string(" "); out_int(b);
    }
  };
};
`,
                hint: "Keep the value of `a` in a third variable before you assign to `a`.",
                answer: cool`class Main inherits IO {
  main() : Object {
    let a : Int <- in_int(), b : Int <- in_int() in {
      let old : Int <- a in { a <- b; b <- old; };
      out_int(a); out_string(" "); out_int(b);
    }
  };
};
`,
                checks: [{ input: "1\n2\n", output: "2 1" }, { input: "5\n5\n", output: "5 5" }],
            },
            {
                words: "What does this program write?",
                shown: cool`class Main inherits IO {
  main() : Object {
    let x : Int <- 1 in {
      let x : Int <- x + 5 in out_int(x);
      out_int(x);
      x <- x + 1;
      let y : Int <- x, x : Int <- 7 in out_int(y);
    }
  };
};
`,
                program: "",
                hint: "The inner `x` is another variable. Its initial value still sees the outer one.",
                answer: "612",
                checks: [{ shown: true }],
            },
        ],
    },
    {
        id: "loops", heading: "Decisions and loops",
        text: [
            "A conditional has two branches, and both are required. Its value is that of the branch that is taken, so it can stand wherever a value can, " +
            "also as an argument.",
            "A loop computes its condition and then its body, again and again, until the condition is false. It has no value of its own: its value is " +
            "void, and its type is Object. Keep in a variable what a loop computes.",
            "A variable of `let` without an initial value has the default of its type: 0, false, the empty string, or else void.",
        ],
        rules: ["If", "While"],
        program: cool`class Main inherits IO {
  main() : Object {
    let n : Int <- 3 in
      while 0 < n loop {
        out_int(n).out_string(" ");
        n <- n - 1;
      } pool
  };
};
`,
        tasks: [
            {
                words: "Read a number n, and write the sum of 1 to n.",
                program: cool`class Main inherits IO {
  main() : Object {
    let n : Int <- in_int(), sum : Int in
      out_int(sum)
  };
};
`,
                hint: "Add n to `sum` and count n down, until it is 0. The loop and the call that writes form a block.",
                answer: cool`class Main inherits IO {
  main() : Object {
    let n : Int <- in_int(), sum : Int in {
      while 0 < n loop { sum <- sum + n; n <- n - 1; } pool;
      out_int(sum);
    }
  };
};
`,
                checks: [{ input: "4\n", output: "10" }, { input: "0\n", output: "0" }, { input: "100\n", output: "5050" }],
            },
            {
                words: "Read a number, and write how many steps it takes to come to 1. An even number is halved. An odd number is tripled, and one is added.",
                program: cool`class Main inherits IO {
  main() : Object {
    let n : Int <- in_int(), steps : Int in
      out_int(steps)
  };
};
`,
                hint: "n is even if `n / 2 * 2 = n`. A conditional gives the next n.",
                answer: cool`class Main inherits IO {
  main() : Object {
    let n : Int <- in_int(), steps : Int in {
      while not n = 1 loop {
        n <- if n / 2 * 2 = n then n / 2 else 3 * n + 1 fi;
        steps <- steps + 1;
      } pool;
      out_int(steps);
    }
  };
};
`,
                checks: [{ input: "6\n", output: "8" }, { input: "1\n", output: "0" }, { input: "27\n", output: "111" }],
            },
        ],
    },
    {
        id: "attributes", heading: "Classes and attributes",
        text: [
            "An object has a place for each attribute of its class and of the classes above. Only its own methods can read and change attributes: from " +
            "outside you call a method.",
            "`new A` first gives each attribute the default of its type. Then it computes the initial values, those of the classes above first, in the " +
            "order of the text. So an initial value can see an attribute that still has its default.",
        ],
        rules: ["New"],
        program: cool`class Point {
  x : Int <- y + 1;
  y : Int <- x + 1;
  sum() : Int { x * 10 + y };
};
class Main inherits IO {
  main() : Object { out_int((new Point).sum()) };
};
`,
        tasks: [
            {
                words: "Complete the class Counter: `add` adds one, and `value` returns how often it was called. Main stays as it is.",
                program: cool`class Counter {
  add() : Counter { self };
  value() : Int { 0 };
};
class Main inherits IO {
  main() : Object {
    let c : Counter <- new Counter, n : Int <- in_int() in {
      while 0 < n loop { c.add(); n <- n - 1; } pool;
      out_int(c.add().add().value());
    }
  };
};
`,
                hint: "Give Counter an attribute. `add` is a block whose last expression is `self`.",
                answer: cool`class Counter {
  count : Int;
  add() : Counter { { count <- count + 1; self; } };
  value() : Int { count };
};
class Main inherits IO {
  main() : Object {
    let c : Counter <- new Counter, n : Int <- in_int() in {
      while 0 < n loop { c.add(); n <- n - 1; } pool;
      out_int(c.add().add().value());
    }
  };
};
`,
                checks: [{ input: "3\n", output: "5" }, { input: "0\n", output: "2" }],
            },
            {
                words: "What does this program write?",
                shown: cool`class A {
  a : Int <- 2;
  b : Int <- a * c;
  c : Int <- a + 3;
  all() : Int { a * 100 + b * 10 + c };
};
class Main inherits IO {
  main() : Object { out_int((new A).all()) };
};
`,
                program: "",
                hint: "When the initial value of `b` is computed, `c` still has its default.",
                answer: "205",
                checks: [{ shown: true }],
            },
        ],
    },
    {
        id: "dispatch", heading: "Methods and dispatch",
        text: [
            "A call `e.f(a)` first computes the arguments, from left to right, and then the receiver `e`. The class of the object decides which method " +
            "`f` is called: the nearest one, from this class upwards. The type of `e` does not decide it.",
            "A class may define an inherited method again. It keeps the types of the parameters and of the result. `e@A.f(a)` calls the method that A " +
            "has, not the new one.",
            "If a method of a class above calls `f()`, it calls the `f` of the object, even if that is defined further down.",
        ],
        rules: ["Dispatch", "StaticDispatch"],
        program: cool`class A inherits IO {
  name() : String { "A" };
  show() : Object { out_string(name()) };
};
class B inherits A {
  name() : String { "B" };
};
class Main {
  main() : Object { (new B).show() };
};
`,
        tasks: [
            {
                words: "Let a Loud write twice what an Animal says. Add methods only to Loud. Call `say` of Animal, and write no text in Loud.",
                program: cool`class Animal inherits IO {
  sound() : String { "miaow " };
  say() : Object { out_string(sound()) };
};
class Loud inherits Animal {
};
class Main {
  main() : Object { (new Loud).say() };
};
`,
                hint: "Define `say` again in Loud. In it, `self@Animal.say()` calls the method of Animal.",
                answer: cool`class Animal inherits IO {
  sound() : String { "miaow " };
  say() : Object { out_string(sound()) };
};
class Loud inherits Animal {
  say() : Object { { self@Animal.say(); self@Animal.say(); } };
};
class Main {
  main() : Object { (new Loud).say() };
};
`,
                checks: [{ input: "", output: "miaow miaow " }],
            },
            {
                words: "Break the rule for methods that are defined again, and no other rule: the checker must report F7.",
                program: cool`class A {
  f(x : Int) : Object { x };
};
class B inherits A {
  f(x : Int) : Object { x + 1 };
};
class Main {
  main() : Object { (new B).f(1) };
};
`,
                hint: "Change the type of the result of `f` in B to one to which the body still conforms.",
                answer: cool`class A {
  f(x : Int) : Object { x };
};
class B inherits A {
  f(x : Int) : Int { x + 1 };
};
class Main {
  main() : Object { (new B).f(1) };
};
`,
                checks: [{ fault: "F7" }],
            },
            {
                words: "The program ends with an error, because it calls a method of void. Let it write 0 for an empty list, and change nothing in Main.",
                program: cool`class List {
  next : List;
  first : Int;
  length() : Int { 1 + next.length() };
};
class Main inherits IO {
  main() : Object { out_int((new List).length() - 1) };
};
`,
                hint: "`isvoid next` tells whether there is a next list.",
                answer: cool`class List {
  next : List;
  first : Int;
  length() : Int { 1 + if isvoid next then 0 else next.length() fi };
};
class Main inherits IO {
  main() : Object { out_int((new List).length() - 1) };
};
`,
                checks: [{ input: "", output: "0" }],
            },
        ],
    },
    {
        id: "conforming", heading: "Conforming types",
        text: [
            "Each expression has a type before the program runs, by the rules. A type conforms to itself and to the classes above it: `B ≤ A` if B " +
            "inherits from A. An assigned value must conform to the type with which the variable was declared.",
            "The type of a conditional is the join of its branches: the least class above both. A conditional with an A and a B below A has the type A, " +
            "and one with an Int and a String has the type Object.",
        ],
        rules: ["Assign", "If"],
        program: cool`class A { };
class B inherits A { };
class Main {
  a : A;
  main() : Object { a <- if true then new A else new B fi };
};
`,
        tasks: [
            {
                words: "Break the rule of the assignment, and no other rule: the checker must report E3.",
                program: cool`class A { };
class B inherits A { };
class Main {
  a : A; b : B;
  main() : Object { a <- b };
};
`,
                hint: "A does not conform to B.",
                answer: cool`class A { };
class B inherits A { };
class Main {
  a : A; b : B;
  main() : Object { b <- a };
};
`,
                checks: [{ fault: "E3" }],
            },
            {
                words: "The body of `pick` does not conform to its declared type. Correct the program, but do not change the body of `pick`.",
                program: cool`class Animal { sound() : String { "?" }; };
class Dog inherits Animal { sound() : String { "woof" }; };
class Cat inherits Animal { sound() : String { "meow" }; };
class Main inherits IO {
  pick(n : Int) : Dog { if n = 0 then new Dog else new Cat fi };
  main() : Object { out_string(pick(in_int()).sound()) };
};
`,
                hint: "Which class is the join of Dog and Cat?",
                answer: cool`class Animal { sound() : String { "?" }; };
class Dog inherits Animal { sound() : String { "woof" }; };
class Cat inherits Animal { sound() : String { "meow" }; };
class Main inherits IO {
  pick(n : Int) : Animal { if n = 0 then new Dog else new Cat fi };
  main() : Object { out_string(pick(in_int()).sound()) };
};
`,
                checks: [{ input: "0\n", output: "woof" }, { input: "1\n", output: "meow" }],
            },
        ],
    },
    {
        id: "self-type", heading: "SELF_TYPE",
        text: [
            "`SELF_TYPE` is the type of `self`: the class of the object whose method runs, which may be below the class where the method is written. A " +
            "method with the result SELF_TYPE, called on a B, has the type B, although it is inherited from A.",
            "SELF_TYPE of a class C conforms to C and to the classes above. No class conforms to SELF_TYPE. It cannot be the type of a parameter, of a " +
            "branch of `case`, or stand after `@`.",
        ],
        rules: ["Self", "Dispatch"],
        program: cool`class A inherits IO {
  say() : SELF_TYPE { { out_string("A "); self; } };
};
class B inherits A {
  more() : SELF_TYPE { { out_string("B "); self; } };
};
class Main {
  main() : Object { (new B).say().more() };
};
`,
        tasks: [
            {
                words: "Main cannot call `high` on the result of `wide`. Correct the type of one method, and change nothing else.",
                program: cool`class Box inherits IO {
  width : Int;
  wide(n : Int) : Box { { width <- n; self; } };
};
class Crate inherits Box {
  high(n : Int) : Object { out_int(width * n) };
};
class Main inherits IO {
  main() : Object { (new Crate).wide(in_int()).high(3) };
};
`,
                hint: "`wide` returns `self`.",
                answer: cool`class Box inherits IO {
  width : Int;
  wide(n : Int) : SELF_TYPE { { width <- n; self; } };
};
class Crate inherits Box {
  high(n : Int) : Object { out_int(width * n) };
};
class Main inherits IO {
  main() : Object { (new Crate).wide(in_int()).high(3) };
};
`,
                checks: [{ input: "4\n", output: "12" }, { input: "-1\n", output: "-3" }],
            },
            {
                words: "Break the rule that no branch of `case` has the type SELF_TYPE, and no other rule: the checker must report E12.",
                program: cool`class Main {
  main() : Object { case self of m : Main => m; o : Object => o; esac };
};
`,
                hint: "Change the type of one branch.",
                answer: cool`class Main {
  main() : Object { case self of m : SELF_TYPE => m; o : Object => o; esac };
};
`,
                checks: [{ fault: "E12" }],
            },
        ],
    },
    {
        id: "case", heading: "case and void",
        text: [
            "`case e of x : A => ..; esac` looks at the class of the object that `e` gives. It takes the branch of the nearest class above it. Two " +
            "branches cannot have the same class.",
            "An attribute or a variable that has no object is void. `isvoid e` is true then. A call on void is a run-time error, and so are a `case` on " +
            "void and a `case` in which no branch fits.",
        ],
        rules: ["Case", "IsVoid"],
        program: cool`class Main inherits IO {
  tell(o : Object) : Object {
    case o of
      n : Int => out_int(n);
      s : String => out_string(s);
      x : Object => out_string("?");
    esac
  };
  main() : Object { { tell(1); tell("two"); tell(self); } };
};
`,
        tasks: [
            {
                words: "`sum` of a list adds up its numbers. Complete it, without `case`: the list ends where `rest` is void.",
                program: cool`class List {
  first : Int; rest : List;
  put(n : Int, l : List) : List { { first <- n; rest <- l; self; } };
  sum() : Int { first };
};
class Main inherits IO {
  main() : Object {
    let l : List, n : Int <- in_int() in {
      while 0 < n loop { l <- (new List).put(n, l); n <- n - 1; } pool;
      out_int(l.sum());
    }
  };
};
`,
                hint: "The sum is `first`, plus the sum of `rest` unless `rest` is void.",
                answer: cool`class List {
  first : Int; rest : List;
  put(n : Int, l : List) : List { { first <- n; rest <- l; self; } };
  sum() : Int { first + if isvoid rest then 0 else rest.sum() fi };
};
class Main inherits IO {
  main() : Object {
    let l : List, n : Int <- in_int() in {
      while 0 < n loop { l <- (new List).put(n, l); n <- n - 1; } pool;
      out_int(l.sum());
    }
  };
};
`,
                checks: [{ input: "4\n", output: "10" }, { input: "1\n", output: "1" }, { without: ["case"] }],
            },
            {
                words: "Break the rule that the classes of the branches differ, and no other rule: the checker must report E13.",
                program: cool`class Main {
  main() : Object { case self of m : Main => 1; o : Object => 2; esac };
};
`,
                hint: "Give both branches one class.",
                answer: cool`class Main {
  main() : Object { case self of m : Main => 1; o : Main => 2; esac };
};
`,
                checks: [{ fault: "E13" }],
            },
        ],
    },
    {
        id: "strings", heading: "Strings and input",
        text: [
            "A String has the methods `length`, `concat` and `substr(i, n)`: n characters from position i, which counts from 0. A string never changes: " +
            "each method returns a new one. Strings are equal by value.",
            "`in_string()` reads a line, without its newline, and `in_int()` reads a line with a number. At the end of the input `in_string()` returns " +
            "the empty string.",
        ],
        rules: ["Equal"],
        program: cool`class Main inherits IO {
  main() : Object {
    let s : String <- "Cool" in out_string(s.concat("!").substr(1, 4))
  };
};
`,
        tasks: [
            {
                words: "Read a line, and write it backwards.",
                program: cool`class Main inherits IO {
  main() : Object { out_string(in_string()) };
};
`,
                hint: "Go through the positions, and put each character before those that you have.",
                answer: cool`class Main inherits IO {
  main() : Object {
    let s : String <- in_string(), back : String, i : Int in {
      while i < s.length() loop {
        back <- s.substr(i, 1).concat(back);
        i <- i + 1;
      } pool;
      out_string(back);
    }
  };
};
`,
                checks: [{ input: "stressed\n", output: "desserts" }, { input: "\n", output: "" }, { input: "ab c\n", output: "c ba" }],
            },
            {
                words: "Read a line, and write how many of its characters are blanks.",
                program: cool`class Main inherits IO {
  main() : Object { out_int(in_string().length()) };
};
`,
                hint: "`s.substr(i, 1) = \" \"` is a Bool.",
                answer: cool`class Main inherits IO {
  main() : Object {
    let s : String <- in_string(), i : Int, blanks : Int in {
      while i < s.length() loop {
        if s.substr(i, 1) = " " then blanks <- blanks + 1 else 0 fi;
        i <- i + 1;
      } pool;
      out_int(blanks);
    }
  };
};
`,
                checks: [{ input: "a b  c\n", output: "3" }, { input: "abc\n", output: "0" }],
            },
        ],
    },
    {
        id: "lexemes", heading: "Lexemes",
        text: [
            "A compiler first splits a text into lexemes: keywords, names, numbers, strings and signs. A type begins with a capital letter, and any other " +
            "name with a small one. Keywords may be written in capitals; `true` and `false` begin with a small letter.",
            "A comment goes from `--` to the end of the line, or from `(*` to `*)`. Comments of the second kind nest.",
        ],
        rules: [],
        program: cool`class Main inherits IO {
  main() : Object {  -- to the end of the line
    out_string(IF true THEN "yes\n" ELSE "no\n" FI)  (* over (* nested *) lines *)
  };
};
`,
        tasks: [
            {
                words: "This comment is not closed. Correct the program by adding two characters.",
                program: cool`class Main inherits IO {
  main() : Object {
    (* an outer (* and an inner comment *)
    out_string("done")
  };
};
`,
                hint: "There are two openings, and one end.",
                answer: cool`class Main inherits IO {
  main() : Object {
    (* an outer (* and an inner comment *)*)
    out_string("done")
  };
};
`,
                checks: [{ input: "", output: "done" }],
            },
            {
                words: "Change the program so that the checker reports L2, a string that is not closed, and no other error.",
                program: cool`class Main inherits IO {
  main() : Object { out_string("text") };
};
`,
                hint: "A string ends in its own line. Leave out its last quotation mark, and move what follows to the next line.",
                answer: cool`class Main inherits IO {
  main() : Object { out_string("text
) };
};
`,
                checks: [{ fault: "L2" }],
            },
        ],
    },
    {
        id: "grammar", heading: "Grammar and levels",
        text: [
            "The parser builds a tree of the lexemes. Operators with a higher level bind tighter: first `.`, `@` and `~`, then `isvoid`, `*` and `/`, `+` " +
            "and `-`, the comparisons, `not`, and last `<-`. Comparisons do not stand in a row.",
            "A `let` reaches as far to the right as it can. Parentheses form a tree of their own.",
        ],
        rules: ["Arith", "Not"],
        program: cool`class Main inherits IO {
  main() : Object {
    if not 1 + 2 * 3 < 7 then out_string("not less") else out_string("less") fi
  };
};
`,
        tasks: [
            {
                words: "Add parentheses so that the program writes 42. Change nothing else.",
                program: cool`class Main inherits IO {
  main() : Object { out_int(1 + 5 * 9 - 2) };
};
`,
                hint: "42 is 6 times 7.",
                answer: cool`class Main inherits IO {
  main() : Object { out_int((1 + 5) * (9 - 2)) };
};
`,
                checks: [{ input: "", output: "42" }],
            },
            {
                words: "What does this program write?",
                shown: cool`class Main inherits IO {
  main() : Object { out_int(2 * let x : Int <- 3 in x + 4) };
};
`,
                program: "",
                hint: "The `let` takes all of `x + 4`.",
                answer: "14",
                checks: [{ shown: true }],
            },
            {
                words: "Break the grammar: the checker must report S1, and no other error.",
                program: cool`class Main {
  main() : Object { if true then 1 else 2 fi };
};
`,
                hint: "A conditional has two branches, and ends with `fi`.",
                answer: cool`class Main {
  main() : Object { if true then 1 fi };
};
`,
                checks: [{ fault: "S1" }],
            },
        ],
    },
    {
        id: "derivations", heading: "Derivations of types",
        text: [
            "The type of an expression follows by a rule from the types of its parts, and their types by rules from theirs: that is a derivation, a tree " +
            "of rules. The view \"Why\" of the editor shows it for the expression at the cursor.",
            "If a premise cannot be derived, the rule does not apply, and the checker reports the error that stands beside this premise.",
        ],
        rules: ["While", "Let-No-Init"],
        program: cool`class Main {
  main() : Object {
    let n : Int in while n < 3 loop n <- n + 1 pool
  };
};
`,
        tasks: [
            {
                words: "Which rule gives the body of `main` its type? Write its name, as it stands in brackets below the rule.",
                shown: cool`class Main {
  main() : Object {
    let done : Bool in while not done loop done <- true pool
  };
};
`,
                program: "",
                hint: "The outermost expression is a `let`, and its variable has no initial value.",
                answer: "Let-No-Init",
                checks: [{ rule: "Let-No-Init" }],
            },
            {
                words: "Which type rule gives `x = y` its type in this program?",
                shown: cool`class Main {
  x : Object; y : Main;
  main() : Object { x = y };
};
`,
                program: "",
                hint: "Neither side is an Int, a Bool or a String.",
                answer: "Equal-Objects",
                checks: [{ rule: "Equal-Objects" }],
            },
            {
                words: "Make the premise about the condition of the loop fail, and no other premise of the program: the checker must report E9.",
                program: cool`class Main {
  main() : Object {
    let n : Int in while n < 3 loop n <- n + 1 pool
  };
};
`,
                hint: "The condition must have the type Bool.",
                answer: cool`class Main {
  main() : Object {
    let n : Int in while n loop n <- n + 1 pool
  };
};
`,
                checks: [{ fault: "E9" }],
            },
        ],
    },
    {
        id: "evaluation", heading: "Evaluation by rules",
        text: [
            "A rule of evaluation says in which order the parts are computed: each premise leaves a store for the next one. `so` is the object `self`, " +
            "`S` the store, and `E` tells where each name stands.",
            "A call computes its arguments before its receiver, and an operator its left operand before its right one. In the debugger of the editor, " +
            "\"Rule under way\" shows how far a rule is.",
        ],
        rules: ["Dispatch", "Add"],
        program: cool`class Main inherits IO {
  f(n : Int) : Int { { out_int(n); n; } };
  main() : Object { f(1) + f(2) * f(3) };
};
`,
        tasks: [
            {
                words: "What does this program write?",
                shown: cool`class Main inherits IO {
  x : Int <- 1;
  next() : Int { { x <- x * 2; x; } };
  me() : Main { { out_int(x); self; } };
  add(a : Int, b : Int) : Int { a * 10 + b };
  main() : Object { out_int(me().add(next(), next())) };
};
`,
                program: "",
                hint: "The arguments come first. When `me()` runs, x is already 4.",
                answer: "424",
                checks: [{ shown: true }],
            },
            {
                words: "What does this program write?",
                shown: cool`class Main inherits IO {
  x : Int;
  f(n : Int) : Bool { { x <- x * 10 + n; n < 3; } };
  main() : Object {
    { while f(x + 1) loop x <- x + 1 pool; out_int(x); }
  };
};
`,
                program: "",
                hint: "Write down x after each premise: the condition changes it, and then the body.",
                answer: "23",
                checks: [{ shown: true }],
            },
        ],
    },
    {
        id: "cost", heading: "What a program costs",
        text: [
            "`cool` compiles a program to instructions of a MIPS processor, and runs these. Each call takes a frame on the stack, and each Int that is " +
            "computed an object on the heap. So two programs that write the same may take very different numbers of instructions.",
            "If a method calls itself twice, the work doubles with each level. A loop that keeps the last two values does each step once.",
        ],
        rules: ["Dispatch", "While-True"],
        program: cool`class Main inherits IO {
  main() : Object { out_int(1 + 2) };
};
`,
        tasks: [
            {
                words: "The program writes the Fibonacci number of n. Let it write the same for 20 within 60,000 instructions.",
                program: cool`class Main inherits IO {
  fib(n : Int) : Int { if n < 2 then n else fib(n - 1) + fib(n - 2) fi };
  main() : Object { out_int(fib(in_int())) };
};
`,
                hint: "Keep two neighbouring numbers in variables, and compute the next one in a loop.",
                answer: cool`class Main inherits IO {
  fib(n : Int) : Int {
    let a : Int <- 0, b : Int <- 1, c : Int in {
      while 0 < n loop { c <- a + b; a <- b; b <- c; n <- n - 1; } pool;
      a;
    }
  };
  main() : Object { out_int(fib(in_int())) };
};
`,
                checks: [{ input: "20\n", output: "6765" }, { input: "1\n", output: "1" }, { instructions: 60000 }],
            },
        ],
    },
];

if (typeof module === "object") module.exports = LESSONS;
