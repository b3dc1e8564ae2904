class Main { main() : Object { 1 (* (* "open *) }; };
_ *
