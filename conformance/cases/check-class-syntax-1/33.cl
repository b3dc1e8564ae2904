class
A
{
x
Int
;
}
;
