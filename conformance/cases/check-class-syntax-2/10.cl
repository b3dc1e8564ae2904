class
A
{
f
(
)
:
Int
