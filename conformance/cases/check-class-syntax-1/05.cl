class
A
inherits
