class
A
{
}
;
;
