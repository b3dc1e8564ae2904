class
A
B
{
}
;
