.data
.space 268435456
.byte 1
