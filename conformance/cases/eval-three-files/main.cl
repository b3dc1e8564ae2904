class Main inherits Writer {
  main() : Object {
    let l : Shapes <- new Shapes in { l.add(new Circle).add(new Square).add((new Square).side(3)); line(l.names()); n(l.area()); }
  };
};
