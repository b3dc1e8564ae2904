"""Samples: random programs, each determined by a seed and a number. Every second is legal; the others have one illegal change, of each kind in turn."""
import functools

import layout
from chance import Chance
from faults import CHANGES, CHANGES_OF_TOKENS
from making import Maker
from trees import Tree, tokens

# Faults of syntax are of more kinds than one, so they have more turns.
KINDS = [*CHANGES, *CHANGES_OF_TOKENS, "S1 by form", "S1", "S1 by form"]
TRIES = 6


class Sample:
    """A program with its input: a tree, or tokens where there is none; how keywords are spelled, what stands between tokens where that is not plain, and
    how many classes of the tree the first of two files has, 0 where it is one file."""

    def __init__(self, tree, found, input, spelled=None, gaps=None, odd=(), first=0):
        self.tree, self.input, self.spelled, self.gaps, self.odd, self.first = tree, input, spelled or {}, gaps, tuple(odd), first
        self._found = found

    def having(self, **changed):
        found = self._found if "found" in changed or changed.get("tree") else self.tokens
        fields = {"tree": self.tree, "found": found, "input": self.input, "spelled": self.spelled, "gaps": self.gaps, "odd": self.odd, "first": self.first}
        return Sample(**{**fields, **changed})

    @functools.cached_property
    def tokens(self):
        return [self.spelled.get(token, token) for token in (tokens(self.tree) if self.tree else self._found)]

    def laid_out(self):
        """What stands behind each token."""
        if self.gaps:
            return self.gaps
        gaps = layout.plain(self.tokens)
        for left, right, gap in self.odd:
            pairs = list(zip(self.tokens, [*self.tokens[1:], ""]))
            gaps[pairs.index((left, right)) if (left, right) in pairs else len(gaps) - 1] = gap
        return gaps

    @functools.cached_property
    def text(self):
        """The bytes of its files, one behind another."""
        return layout.text(self.tokens, self.laid_out()).encode("latin-1")

    @functools.cached_property
    def texts(self):
        """The bytes of each of its files."""
        classes = self.tree.parts[: min(self.first, len(self.tree.parts) - 1)] if self.tree else ()
        if not classes:
            return (self.text,)
        count, gaps = len(tokens(Tree("program", (), classes))), self.laid_out()
        parts = (self.tokens[:count], gaps[:count]), (self.tokens[count:], gaps[count:])
        return tuple(layout.text(*part).encode("latin-1") for part in parts)

    @property
    def weight(self):
        """By this one sample is smaller than another."""
        return len(self.tokens), len(self.text) + len(self.input), self.text


def changed_by(kind, tree, chance):
    """The tree with a change of a kind, and the tokens; no tree where the change is one of tokens."""
    if kind in CHANGES_OF_TOKENS:
        return None, CHANGES_OF_TOKENS[kind](tokens(tree), chance)
    for _ in range(TRIES):
        new = CHANGES[kind](tree, chance)
        if new:
            return new, None
    return tree, None


def sample(seed, number, choices=False):
    """The sample of a number, the same for the same seed everywhere."""
    maker, chance = Maker("%s program %s" % (seed, number), choices), Chance("%s sample %s" % (seed, number))
    tree, found = maker.program(), None
    if number % 2:
        tree, found = changed_by(KINDS[number // 2 % len(KINDS)], tree, chance)
    files = Chance("%s files %s" % (seed, number))
    first = 1 + files.below(len(tree.parts) - 1) if tree and len(tree.parts) > 1 and files.happens(0.1) else 0
    plain = Sample(tree, found, maker.input().encode("latin-1"), first=first)
    if not chance.happens(0.4):
        return plain
    spelled = {word: layout.keyword_by_chance(word, chance) for word in sorted(layout.KEYWORDS)}
    sampled = plain.having(spelled=spelled)
    return sampled.having(gaps=layout.by_chance(sampled.tokens, chance))
