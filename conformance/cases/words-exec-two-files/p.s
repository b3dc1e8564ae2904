main: jr $ra
