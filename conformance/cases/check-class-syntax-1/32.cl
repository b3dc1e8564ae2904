class
A
{
x
;
}
;
