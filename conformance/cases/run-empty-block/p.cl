class Main inherits IO{main():Object{{}};};
