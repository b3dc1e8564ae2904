"""Prints tokens as text, with white space and comments between them and a case for the keywords, either random or plain."""
import re

KEYWORDS = frozenset("class else false fi if in inherits isvoid let loop pool then while case esac new of not true".split())
BLANKS = (" ", " ", " ", "\n", "\n", "\t", "  ", "\r\n", "\f", "\v", " \n\n")
COMMENTS = ("-- x\n", "--\n", "-- \" (* \n", "---(*)\n",
            "(* *)", "(**)", "(* (* *) *)", "(* -- *)", "(*\n*)", "(***)", "(*) *)", '(* " *)', "(*(**)(**)*)", "--fi;\n")
# Pairs of tokens that would be read as another lexeme without anything between them.
WORD = re.compile(r"[A-Za-z0-9_]")
JOINED = ("<-", "<=", "=>", "--", "(*", "*)")


def must_part(left, right):
    """Whether two tokens are others when nothing stands between them."""
    return bool(WORD.match(left[-1:]) and WORD.match(right[:1])) or left[-1:] + right[:1] in JOINED


def plain(tokens):
    """Plain gaps: a line for each feature and class, and blanks where they are usual. The last one ends the file."""
    gaps, depth = [], 0
    for left, right in zip(tokens, [*tokens[1:], ""]):
        depth += (left in ("{", "case")) - (left in ("}", "esac"))
        if not right or depth <= 0 and left == ";" or depth == 1 and right == "}":
            gaps.append("\n")
        elif depth == 1 and left in ("{", ";"):
            gaps.append("\n  ")
        else:
            gaps.append(" " if must_part(left, right) or left not in "(.@~" and right not in ";,.)@(" else "")
    return gaps


def by_chance(tokens, chance):
    """Gaps of any kind."""
    gaps = []
    for left, right in zip(tokens, [*tokens[1:], ""]):
        gap = ""
        if not right or must_part(left, right) or chance.happens(0.6):
            gap = chance.one_of(BLANKS)
        if chance.happens(0.1):
            comment = chance.one_of(COMMENTS)
            # A comment that follows a sign could begin one byte earlier: `-` and `--`, `(` and `(*`.
            gap = (gap or " ") + comment + chance.one_of(("", " "))
        gaps.append(gap)
    return gaps


def keyword_by_chance(token, chance):
    """A keyword in letters of any case, but for the first letter of a truth."""
    if token not in KEYWORDS:
        return token
    kept = 1 if token in ("true", "false") else 0
    return token[:kept] + "".join(chance.one_of((letter, letter.upper())) for letter in token[kept:])


def text(tokens, gaps):
    return "".join(part for pair in zip(tokens, gaps) for part in pair)


# Names that a program cannot choose.
KEPT = frozenset("Main main self SELF_TYPE Object IO Int Bool String abort type_name copy out_string out_int in_string in_int length concat substr".split())


def shape(tokens):
    """The tokens with one word for each name of the program, number and string: programs that are alike have one shape."""
    names = {}

    def shaped(token):
        if token[:1] in '"' or token[:1].isdigit():
            return '"' if token[:1] == '"' else "0"
        if WORD.match(token) and token not in KEPT and token.lower() not in KEYWORDS:
            return names.setdefault(token, "%s%d" % ("T" if token[:1].isupper() else "x", len(names)))
        return token
    return " ".join(map(shaped, tokens))
