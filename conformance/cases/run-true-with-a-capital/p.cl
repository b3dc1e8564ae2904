CLASS Main INHERITS IO { main() : Object { IF True THEN out_string("y\n") ELSE self FI }; };
