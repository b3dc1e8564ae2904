class
A
{
