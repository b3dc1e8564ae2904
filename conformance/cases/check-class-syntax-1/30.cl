class
A
{
x
:
Int
}
;
