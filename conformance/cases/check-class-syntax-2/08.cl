class
A
{
f
(
)
