class Main { main() : Object { 1@SELF_TYPE.m(zz) }; b() : Object { 1@SELF_TYPE.m(1) }; };
