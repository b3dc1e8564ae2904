jalr $1 5
