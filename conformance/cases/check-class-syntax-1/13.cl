class
a
{
}
;
