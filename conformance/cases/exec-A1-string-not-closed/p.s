.ascii "a\"
