class Main inherits IO { main() : Object { out_int(if (1 + 2) * 3 = 9 then ~(7 / ~2) - 10 * (4 - 6) else 0 fi) }; };
