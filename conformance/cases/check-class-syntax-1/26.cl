class
A
{
x
