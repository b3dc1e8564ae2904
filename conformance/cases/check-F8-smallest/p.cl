class Main { };
