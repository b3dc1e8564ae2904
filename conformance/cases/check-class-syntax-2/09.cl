class
A
{
f
(
)
:
