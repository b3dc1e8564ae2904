class
A
{
x
:
Int
<-
1
