-- A list of numbers is an empty list, or a cell that holds a number and the rest of the list.
-- Each of the two classes gives its own answers, so no method asks which of them it has got.

class List inherits IO {
  length() : Int { 0 };
  sum() : Int { 0 };
  has(number : Int) : Bool { false };

  -- This list with a number before all others.
  push(number : Int) : List { (new Cell).make(number, self) };

  -- The numbers of this list, and then those of another.
  append(other : List) : List { other };

  reversed() : List { reversed_onto(new List) };
  reversed_onto(done : List) : List { done };

  -- Insertion sort: the rest is sorted first, and then the number finds its place.
  sorted() : List { self };
  insert(number : Int) : List { push(number) };

  -- The numbers of this list, each of them once.
  set() : List { self };

  write() : Object {
    {
      out_string("[");
      write_numbers("");
      out_string("]\n");
    }
  };

  write_numbers(before : String) : Object { self };
};

class Cell inherits List {
  head : Int;
  rest : List;

  make(number : Int, numbers : List) : SELF_TYPE {
    {
      head <- number;
      rest <- numbers;
      self;
    }
  };

  length() : Int { 1 + rest.length() };
  sum() : Int { head + rest.sum() };
  has(number : Int) : Bool { if head = number then true else rest.has(number) fi };

  append(other : List) : List { rest.append(other).push(head) };
  reversed_onto(done : List) : List { rest.reversed_onto(done.push(head)) };

  sorted() : List { rest.sorted().insert(head) };

  insert(number : Int) : List {
    if number <= head then push(number) else rest.insert(number).push(head) fi
  };

  set() : List {
    if rest.has(head) then rest.set() else rest.set().push(head) fi
  };

  write_numbers(before : String) : Object {
    {
      out_string(before);
      out_int(head);
      rest.write_numbers(", ");
    }
  };
};

class Main inherits IO {
  digits_of_pi() : List {
    (new List).push(5).push(3).push(5).push(6).push(2).push(9).push(5).push(1).push(4).push(1).push(3)
  };

  -- The numbers from one to another.
  range(first : Int, last : Int) : List {
    if last < first then new List else range(first + 1, last).push(first) fi
  };

  show(label : String, list : List) : Object {
    {
      out_string(label);
      list.write();
    }
  };

  main() : Object {
    let digits : List <- digits_of_pi() in {
      show("digits    ", digits);
      show("reversed  ", digits.reversed());
      show("sorted    ", digits.sorted());
      show("as a set  ", digits.sorted().set());
      show("appended  ", range(1, 4).append(range(7, 9)));
      show("empty     ", range(1, 0));
      out_string("length    ").out_int(digits.length()).out_string("\n");
      out_string("sum       ").out_int(digits.sum()).out_string("\n");
    }
  };
};
