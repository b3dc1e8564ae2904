class
A
{
1
}
;
