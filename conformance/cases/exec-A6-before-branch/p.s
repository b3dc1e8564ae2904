.data
.word nowhere
.text
main: b nowhere
