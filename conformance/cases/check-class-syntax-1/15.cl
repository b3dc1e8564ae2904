class
A
inherits
{
}
;
