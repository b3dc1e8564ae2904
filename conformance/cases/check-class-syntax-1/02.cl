class
A
