class
A
{
}
;
class
B
{
