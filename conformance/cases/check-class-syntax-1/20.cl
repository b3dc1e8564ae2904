class
A
{
}
;
class
