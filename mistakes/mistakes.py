"""Makes mistakes of one token for `mutations.py`: each function returns the tokens that replace a token and the next one, or None if it does not apply."""

# The tokens of other languages for a token of Cool.
OF_OTHERS = {
    b"<-": (b"=", b":="),
    b"=": (b"==",),
    b"=>": (b"->", b":"),
    b"~": (b"-",),
    b";": (b",",),
    b"not": (b"!",),
    b"self": (b"this",),
    b"inherits": (b"extends", b":"),
    b"then": (b"{",),
    b"loop": (b"do", b"{"),
    b"pool": (b"od", b"end", b"}"),
    b"fi": (b"end", b"endif", b"}"),
    b"esac": (b"end", b"}"),
    b"true": (b"True",),
    b"false": (b"False",),
    b"Int": (b"int", b"Integer"),
    b"String": (b"string",),
    b"Bool": (b"bool", b"Boolean"),
    b"Object": (b"void",),
    b"out_string": (b"print", b"puts"),
    b"out_int": (b"print",),
    b"length": (b"size", b"len"),
    b"substr": (b"substring",),
}


def taken_out(chance, here, behind, words):
    return [], [behind]


def doubled(chance, here, behind, words):
    return [here, here], [behind]


def exchanged(chance, here, behind, words):
    return [behind], [here]


def replaced(chance, here, behind, words):
    return [chance.choice(words)], [behind]


def misspelt(chance, here, behind, words):
    """Two letters of a word exchanged."""
    at = chance.randrange(len(here))
    if len(here) < 3 or not here[:1].isalpha() or at + 2 > len(here):
        return None
    return [here[:at] + here[at + 1 : at + 2] + here[at : at + 1] + here[at + 2 :]], [behind]


def of_others(chance, here, behind, words):
    """A word or sign of another language; strings have its quotes."""
    if here[:1] == b'"' and b"'" not in here and b"\\" not in here:
        return [b"'%s'" % here[1:-1]], [behind]
    return ([chance.choice(OF_OTHERS[here])], [behind]) if here in OF_OTHERS else None


KINDS = {
    "taken out": taken_out,
    "doubled": doubled,
    "exchanged with the next": exchanged,
    "replaced by another": replaced,
    "with two letters exchanged": misspelt,
    "of another language": of_others,
}
