.ascii "a\q"
