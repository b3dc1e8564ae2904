class
A
{
f
(
