-- Queens on a board of which none attacks another: one in each row, by trying and going back.
-- Each queen knows those in the rows above her, and asks them whether a place is safe.

-- No queen at all: the end of each chain of queens.
class Nobody inherits IO {
  attacks(row : Int, column : Int) : Bool { false };
  write(size : Int) : Object { self };
};

class Queen inherits Nobody {
  row : Int;
  column : Int;
  above : Nobody;

  stand(my_row : Int, my_column : Int, others : Nobody) : SELF_TYPE {
    {
      row <- my_row;
      column <- my_column;
      above <- others;
      self;
    }
  };

  -- Whether she or one of those above her attacks a place in a row below.
  attacks(other_row : Int, other_column : Int) : Bool {
    if other_column = column then true else
    if other_column - column = other_row - row then true else
    if column - other_column = other_row - row then true else
    above.attacks(other_row, other_column) fi fi fi
  };

  -- Writes her row below those above her.
  write(size : Int) : Object {
    {
      above.write(size);
      out_string(" ");
      let place : Int in
        while place < size loop {
          out_string(if place = column then " Q" else " ." fi);
          place <- place + 1;
        } pool;
      out_string("\n");
    }
  };
};

class Board inherits IO {
  size : Int;
  solutions : Int;
  first : Nobody <- new Nobody;

  make(rows : Int) : SELF_TYPE {
    {
      size <- rows;
      place(0, new Nobody);
      self;
    }
  };

  -- Places queens from a row on, in all ways that those above allow.
  place(row : Int, above : Nobody) : Object {
    if row = size then keep(above) else
      let column : Int in
        while column < size loop {
          if above.attacks(row, column) then self else
            place(row + 1, (new Queen).stand(row, column, above))
          fi;
          column <- column + 1;
        } pool
    fi
  };

  keep(queens : Nobody) : Object {
    {
      if solutions = 0 then first <- queens else first fi;
      solutions <- solutions + 1;
    }
  };

  write() : Object {
    {
      out_int(size).out_string(" queens: ").out_int(solutions).out_string(" solutions, of which the first is\n");
      first.write(size);
    }
  };
};

class Main {
  main() : Object {
    let size : Int <- 4 in
      while size <= 7 loop {
        (new Board).make(size).write();
        size <- size + 1;
      } pool
  };
};
