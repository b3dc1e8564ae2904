.ascii "a\q
