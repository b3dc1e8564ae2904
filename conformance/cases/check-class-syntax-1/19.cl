class
A
{
}
;
x
