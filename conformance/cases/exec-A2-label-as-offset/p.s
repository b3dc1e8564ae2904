lw $1, label($2)
