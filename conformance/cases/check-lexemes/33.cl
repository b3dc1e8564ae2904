"a\
b"c