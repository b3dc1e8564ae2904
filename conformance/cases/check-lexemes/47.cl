"x\
y" z