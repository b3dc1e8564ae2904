a
_b