class
A
inherits
B
