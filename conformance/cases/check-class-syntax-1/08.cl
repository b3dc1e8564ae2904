class
A
{
}
class
