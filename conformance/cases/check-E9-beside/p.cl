class Main { main() : Object { if 1 then zz else 2 fi }; b() : Object { while (1 + 1) loop 1 pool }; };
