class
A
{
;
}
;
