---x
y