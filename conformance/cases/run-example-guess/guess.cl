-- A guessing game for one player after the other, as a dialogue with in_string and in_int.
-- At the end of the input a name is empty and a number is 0, so the game ends there, too.

-- Numbers that look like chance: each is made of the one before it.
class Chance {
  seed : Int <- 2026;

  -- A number from 1 to 100.
  next() : Int {
    {
      seed <- seed * 75 + 74;
      seed <- seed - seed / 65537 * 65537;
      seed - seed / 100 * 100 + 1;
    }
  };
};

class Game inherits IO {
  secret : Int;
  tries : Int;

  start(number : Int) : SELF_TYPE {
    {
      secret <- number;
      self;
    }
  };

  ask() : Int {
    {
      out_string("  Your guess, or 0 to give up? ");
      in_int();
    }
  };

  -- Asks until the secret is found or the player gives up, and says whether it was found.
  play() : Bool {
    let guess : Int <- ask() in {
      while if guess = 0 then false else not guess = secret fi loop {
        tries <- tries + 1;
        out_string(if guess < secret then "Too low.\n" else "Too high.\n" fi);
        guess <- ask();
      } pool;
      tries <- tries + 1;
      guess = secret;
    }
  };

  tell(found : Bool) : Object {
    if found then
      out_string("Right, after ").out_int(tries).out_string(if tries = 1 then " guess!\n" else " guesses!\n" fi)
    else
      out_string("It was ").out_int(secret).out_string(".\n")
    fi
  };
};

class Main inherits IO {
  chance : Chance <- new Chance;
  players : Int;
  winners : Int;

  name() : String {
    {
      out_string("Who plays? ");
      in_string();
    }
  };

  welcome(name : String) : Object {
    {
      players <- players + 1;
      out_string("Hello, ").out_string(name).out_string(". I think of a number from 1 to 100.\n");
    }
  };

  play() : Object {
    let game : Game <- (new Game).start(chance.next()), found : Bool <- game.play() in {
      game.tell(found);
      if found then winners <- winners + 1 else winners fi;
    }
  };

  main() : Object {
    let player : String <- name() in {
      while not player = "" loop {
        welcome(player);
        play();
        player <- name();
      } pool;
      out_string("\n").out_int(winners).out_string(" of ").out_int(players).out_string(" found their number.\n");
    }
  };
};
