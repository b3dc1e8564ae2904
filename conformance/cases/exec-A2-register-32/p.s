jr $32
