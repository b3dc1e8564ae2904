andi $1,$2,-1
