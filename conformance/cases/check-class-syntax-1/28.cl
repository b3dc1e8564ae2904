class
A
{
x
:
Int
