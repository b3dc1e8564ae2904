class
A
{
}
;
