.text
.word 1
