-- Shapes of several classes in one drawing: each answers in its own way, by dispatch.
-- What gives SELF_TYPE gives the class of its receiver: a copy of a square that is moved is a square.

class Shape inherits IO {
  x : Int;
  y : Int;

  area() : Int { 0 };

  -- Makes the shape itself greater; each class says how.
  grow(factor : Int) : Object { self };

  move(right : Int, up : Int) : SELF_TYPE {
    {
      x <- x + right;
      y <- y + up;
      self;
    }
  };

  -- Another shape of the same class, elsewhere or greater. This one stays as it is.
  moved(right : Int, up : Int) : SELF_TYPE { copy().move(right, up) };

  scaled(factor : Int) : SELF_TYPE {
    let other : SELF_TYPE <- copy() in {
      other.grow(factor);
      other;
    }
  };

  describe() : Object {
    {
      out_string(type_name()).out_string(" at (").out_int(x).out_string(", ").out_int(y);
      out_string("), area ").out_int(area());
    }
  };
};

class Circle inherits Shape {
  radius : Int;

  around(distance : Int) : SELF_TYPE {
    {
      radius <- distance;
      self;
    }
  };

  area() : Int { radius * radius * 355 / 113 };
  grow(factor : Int) : Object { radius <- factor * radius };

  describe() : Object {
    {
      self@Shape.describe();
      out_string(", radius ").out_int(radius);
    }
  };
};

class Rectangle inherits Shape {
  width : Int;
  height : Int;

  sides(one : Int, other : Int) : SELF_TYPE {
    {
      width <- one;
      height <- other;
      self;
    }
  };

  area() : Int { width * height };
  grow(factor : Int) : Object { sides(factor * width, factor * height) };

  turned() : SELF_TYPE { copy().sides(height, width) };

  describe() : Object {
    {
      self@Shape.describe();
      out_string(", ").out_int(width).out_string(" by ").out_int(height);
    }
  };
};

class Square inherits Rectangle {
  side(length : Int) : SELF_TYPE { sides(length, length) };

  describe() : Object {
    {
      self@Shape.describe();
      out_string(", side ").out_int(width);
    }
  };
};

-- A drawing is empty, or a shape on another drawing.
class Drawing {
  with(shape : Shape) : Drawing { (new Layer).put(shape, self) };
  area() : Int { 0 };
  describe() : Object { self };
};

class Layer inherits Drawing {
  shape : Shape;
  below : Drawing;

  put(top : Shape, drawing : Drawing) : SELF_TYPE {
    {
      shape <- top;
      below <- drawing;
      self;
    }
  };

  area() : Int { shape.area() + below.area() };

  describe() : Object {
    {
      below.describe();
      shape.describe();
      (new IO).out_string("\n");
    }
  };
};

class Main inherits IO {
  main() : Object {
    let circle : Circle <- (new Circle).around(10),
        door : Rectangle <- (new Rectangle).sides(2, 5),
        square : Square <- (new Square).side(3).move(1, 1),
        drawing : Drawing <- (new Drawing)
          .with(circle).with(circle.scaled(3).moved(50, 0))
          .with(door).with(door.turned().moved(~4, 7))
          .with(square).with(square.moved(10, 10).scaled(2)) in {
      drawing.describe();
      out_string("Area of all: ").out_int(drawing.area()).out_string("\n");
    }
  };
};
