a

"x\
y" _