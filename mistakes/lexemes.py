"""Finds the positions of comments and strings in a file, to distinguish names from text that only looks like one (docs/language.md)."""
import re

STRING = rb'"(?:[^"\\\n\0]|\\[^\0])*'
# What may hide what looks like a token. `<-` is here, since `<--` begins no comment.
HIDING = re.compile(rb'<-|--[^\n]*|%s"?|\(\*' % STRING)
BRACKET = re.compile(rb"\(\*|\*\)")
KEYWORDS = frozenset(b"class else fi if in inherits isvoid let loop pool then while case esac new of not".split())


def comment_end(data, at):
    """The end of the block comment that begins at a place, or None where it is not closed."""
    depth, end = 1, at + 2
    while depth:
        bracket = BRACKET.search(data, end)
        if not bracket:
            return None
        depth += 1 if bracket.group() == b"(*" else -1
        end = bracket.end()
    return end


def hidden(data):
    """The comments and strings of a file, as (start, end), up to a comment that is not closed: its end is None."""
    at = 0
    while at is not None:
        matches, at = HIDING.finditer(data, at), None
        for match in matches:
            start, end = match.span()
            if data.startswith(b"(*", start):
                at = comment_end(data, start)
                yield start, at
                break
            if not data.startswith(b"<-", start):
                yield start, end


def bare(data):
    """The file with blanks for its comments and strings, each byte at its place, and whether each comment is closed."""
    pieces, at = [], 0
    for start, end in hidden(data):
        pieces += [data[at:start], b" " * ((len(data) if end is None else end) - start)]
        at = end
        if at is None:
            return b"".join(pieces), False
    return b"".join(pieces + [data[at:]]), True
