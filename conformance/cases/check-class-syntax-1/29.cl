class
A
{
x
:
Int
;
