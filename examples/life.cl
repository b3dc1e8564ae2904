-- Conway's game of life on a small board whose opposite edges meet: what leaves on one side comes in on the other.
-- A board never changes: its next generation is another board, made cell by cell as a text.

class Board inherits IO {
  width : Int;
  height : Int;
  cells : String;

  -- A board of that width, row behind row in one text: # is a live cell.
  make(columns : Int, text : String) : SELF_TYPE {
    {
      width <- columns;
      height <- text.length() / columns;
      cells <- text;
      self;
    }
  };

  -- The place on a ring of that size: one before the first is the last.
  around(place : Int, size : Int) : Int {
    if place < 0 then place + size else
    if size <= place then place - size else
    place fi fi
  };

  -- What stands in a cell.
  at(row : Int, column : Int) : String {
    cells.substr(around(row, height) * width + around(column, width), 1)
  };

  -- 1 for a live cell, and 0 for a dead one.
  live(row : Int, column : Int) : Int { if at(row, column) = "#" then 1 else 0 fi };

  neighbours(row : Int, column : Int) : Int {
    live(row - 1, column - 1) + live(row - 1, column) + live(row - 1, column + 1) +
      live(row, column - 1) + live(row, column + 1) +
      live(row + 1, column - 1) + live(row + 1, column) + live(row + 1, column + 1)
  };

  -- What stands in a cell in the next generation: three neighbours give life, and two keep what is there.
  fate(row : Int, column : Int) : String {
    let count : Int <- neighbours(row, column) in
      if count = 3 then "#" else
      if count = 2 then at(row, column) else
      "." fi fi
  };

  next() : Board {
    let text : String, row : Int in {
      while row < height loop
        let column : Int in {
          while column < width loop {
            text <- text.concat(fate(row, column));
            column <- column + 1;
          } pool;
          row <- row + 1;
        }
      pool;
      (new Board).make(width, text);
    }
  };

  write() : Object {
    let row : Int in
      while row < height loop {
        out_string("  ").out_string(cells.substr(row * width, width)).out_string("\n");
        row <- row + 1;
      } pool
  };
};

class Main inherits IO {
  -- A blinker, and a glider that comes to the corner.
  start() : Board {
    (new Board).make(9,
      "........."
        .concat(".........")
        .concat("....#....")
        .concat("....#....")
        .concat("....#....")
        .concat(".......#.")
        .concat("........#")
        .concat("......###"))
  };

  main() : Object {
    let board : Board <- start(), generation : Int in
      while generation <= 5 loop {
        out_string("generation ").out_int(generation).out_string("\n");
        board.write();
        board <- board.next();
        generation <- generation + 1;
      } pool
  };
};
