class
A
{
}
