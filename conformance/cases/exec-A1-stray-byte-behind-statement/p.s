nop @
