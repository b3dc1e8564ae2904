jr $08
