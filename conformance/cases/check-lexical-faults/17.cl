"a\
b
c"