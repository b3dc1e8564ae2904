add $t0 5 "abc
