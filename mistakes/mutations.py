"""Makes the programs with one mistake for `mends`: those of students, and examples with one randomly changed token, the same for the same seed."""
import glob
import os
import random
import re

from lexemes import KEYWORDS, bare, hidden
from mistakes import KINDS

ROOT = os.path.dirname(os.path.dirname(os.path.realpath(__file__)))

WORDS = re.compile(rb"[A-Za-z][A-Za-z0-9_]*|[0-9]+|<-|<=|=>|[{}();:,.@~*/+\-<=]")


def read(path):
    with open(path, "rb") as file:
        return file.read()


def tokens(text):
    """The tokens of a program, as (start, end)."""
    strings = [span for span in hidden(text) if text.startswith(b'"', span[0])]
    return sorted([match.span() for match in WORDS.finditer(bare(text)[0])] + strings)


def lexemes(text):
    """The tokens of a program as bytes: what stands between them is no part of it."""
    return [text[start:end] for start, end in tokens(text)]


class Program:
    """A program with a mistake of some kind, and what its author means."""

    def __init__(self, kind, name, text, meant):
        self.kind, self.name, self.text, self.meant = kind, name, text, meant


def students(folder):
    """What students write, each beside what it means. The kind is the name of the folder."""
    for path in sorted(glob.glob(os.path.join(folder, "*.meant.cl"))):
        short = path[: -len(".meant.cl")]
        yield Program(os.path.basename(folder), os.path.basename(short), read(short + ".cl"), read(path))


def is_free(word):
    """Whether a token is one of many that may stand where it stands: a name or a constant."""
    return word.lower() not in KEYWORDS and (word.isalnum() or word[:1] == b'"' or b"_" in word)


def mutation(chance, kind, name, text):
    """The program with one of its tokens changed, or None where that changes nothing. Blanks keep tokens apart."""
    places = tokens(text)
    words, at = [text[start:end] for start, end in places], chance.randrange(len(places) - 1)
    found = KINDS[kind](chance, words[at], words[at + 1], words)
    if found is None or sum(found, []) == words[at : at + 2]:
        return None
    here, behind = found
    (start, end), (next_start, next_end) = places[at : at + 2]
    new = text[:start] + b" ".join([*here, b""]) + text[end:next_start] + b" ".join([b"", *behind, b""]) + text[next_end:]
    line = text.count(b"\n", 0, start) + 1
    sort = "%s %s" % ("name or constant" if is_free(words[at]) else "sign or keyword", kind)
    return Program(sort, "%s:%d `%s`" % (name, line, words[at].decode(errors="replace")), new, text)


def mutations(kind, count, seed, is_program):
    """So many mutations that are no programs, of the examples that are programs of one file."""
    found = {os.path.basename(path): read(path) for path in sorted(glob.glob(os.path.join(ROOT, "examples", "*.cl")))}
    texts = [(name, text) for name, text in found.items() if is_program(text)]
    chance = random.Random("%d %s" % (seed, kind))
    while count:
        made = mutation(chance, kind, *chance.choice(texts))
        if made and not is_program(made.text):
            count -= 1
            yield made
