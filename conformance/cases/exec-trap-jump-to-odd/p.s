__start: li $4, 0x00400001
        jr $4
