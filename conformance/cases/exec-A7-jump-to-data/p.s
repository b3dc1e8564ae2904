main: j x
.data
x: .byte 1
