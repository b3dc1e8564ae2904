class
A
{
f
(
a
:
Int
