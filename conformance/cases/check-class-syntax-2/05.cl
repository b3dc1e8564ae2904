class
A
{
f
(
a
