class Maininherits IO{main():Object{{out_string("a");}};};
