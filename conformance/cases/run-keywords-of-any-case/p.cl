CLASS Main INHERITS IO { main() : Object { IF tRUE THEN out_string("y\n") ELSE self FI }; };
