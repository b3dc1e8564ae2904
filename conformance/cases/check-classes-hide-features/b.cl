class Main inherits Z { };
