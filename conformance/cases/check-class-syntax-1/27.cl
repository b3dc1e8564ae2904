class
A
{
x
:
