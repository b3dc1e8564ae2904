class
A
{
x
:
Int
<-
