class
A
inherits
B
{
