class
A
inherits
b
{
}
;
