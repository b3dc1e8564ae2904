class
A
inherits
B
{
}
;
