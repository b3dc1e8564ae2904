x "ab
c"