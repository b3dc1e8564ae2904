-- People stand in a circle and are counted: every third one leaves, until one is left. This is the problem of Josephus. The circle is a
-- ring of objects, of which each knows the next.

class Person {
  number : Int;
  next : Person;

  number() : Int { number };
  next() : Person { next };

  stand(place : Int, before : Person) : SELF_TYPE {
    {
      number <- place;
      next <- before;
      self;
    }
  };

  -- Has this one stand behind the person.
  face(person : Person) : Person { next <- person };
};

class Circle inherits IO {
  last : Person; -- counting begins at the one in front
  size : Int;

  -- So many people, numbered from 1 on.
  fill(count : Int) : SELF_TYPE {
    let first : Person <- (new Person).stand(count, last) in {
      last <- first;
      size <- count;
      let place : Int <- count - 1 in
        while 0 < place loop {
          first <- (new Person).stand(place, first);
          place <- place - 1;
        } pool;
      last.face(first);
      self;
    }
  };

  -- Counts to the number; who has it leaves.
  leave(number : Int) : Person {
    {
      while 1 < number loop {
        last <- last.next();
        number <- number - 1;
      } pool;
      let gone : Person <- last.next() in {
        last.face(gone.next());
        size <- size - 1;
        gone;
      };
    }
  };

  play(number : Int) : Object {
    {
      while 1 < size loop out_string(" ").out_int(leave(number).number()) pool;
      out_string(", and ").out_int(last.number()).out_string(" is left\n");
    }
  };
};

class Main inherits IO {
  game(count : Int, number : Int) : Object {
    {
      out_int(count).out_string(" people, by ").out_int(number).out_string(":");
      (new Circle).fill(count).play(number);
    }
  };

  main() : Object {
    {
      game(10, 2);
      game(12, 5);
      game(41, 3);
    }
  };
};
