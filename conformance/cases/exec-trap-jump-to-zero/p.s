__start: jr $zero
