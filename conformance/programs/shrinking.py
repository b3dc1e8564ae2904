"""Shrinks a program as long as a condition holds for it: first white space and comments, then classes, features and expressions, then single tokens."""
import itertools
import time

import layout
from faults import renamed_class
from trees import Tree, constant, mapped, name, replaced, walk

DEFAULTS = {"Int": constant("0", "Int"), "Bool": constant("true", "Bool"), "String": constant('""', "String")}
LEAVES = (*DEFAULTS.values(), name("self", "SELF_TYPE"), Tree("new", ["Object"], (), "Object"), constant("1", "Int"), constant("false", "Bool"),
          constant('"a"', "String"))
SHORT = {"class": "ABCDEGH", "type": "ABCDEGH", "method": "fgh", "name": "xyzabc"}


def without(tree, path):
    """The tree without what stands at a path."""
    return replaced(tree, path, *())


def paths_of(tree, *forms):
    return [(path, part) for path, part in walk(tree) if part.form in forms]


def by_size(rows):
    return sorted(rows, key=lambda row: -row[1].size())


def value_of(type):
    """A small expression of a type."""
    if type in DEFAULTS:
        return DEFAULTS[type]
    return name("self", "SELF_TYPE") if type == "SELF_TYPE" else Tree("new", [type], (), type)


# Each of these gives trees that may be smaller, the much smaller ones first.


def fewer_classes(tree):
    for path, of in by_size(paths_of(tree, "class")):
        if of.words[0] == "Main":
            continue
        left = without(tree, path)
        yield left
        yield renamed_class(left, of.words[0], of.words[1] or "Object")
        # Its features go to those that inherit from it.
        heirs = [it.having([it.words[0], of.words[1]], (*of.parts, *it.parts)) if it.words[1] == of.words[0] else it for it in left.parts]
        yield renamed_class(left.having(parts=heirs), of.words[0], of.words[1] or "Object")
        below = [it.words[0] for it in tree.parts if it.words[1] == of.words[0]]
        if below:
            yield renamed_class(left.having(parts=heirs), of.words[0], below[0])


def without_calls(tree, word, type):
    """The tree with a small value in the place of each call of a method."""
    def change(part):
        return value_of(type) if part.form in ("own", "call", "static") and part.words[0] == word else part
    return mapped(tree, change)


def fewer_features(tree):
    for at, of in enumerate(tree.parts):
        rows = [row for row in of.parts if row.words[0] == "main"] if of.words[0] == "Main" else []
        if len(rows) + 1 < len(of.parts):
            yield replaced(tree, (at,), of.having(parts=rows))
    for path, row in by_size(paths_of(tree, "method", "attribute")):
        yield without(tree, path)
        if row.form == "method" and row.words[0] != "main":
            others = [it for it, part in paths_of(tree, "method") if part.words[0] == row.words[0]]
            left = tree
            for other in sorted(others, reverse=True):
                left = without(left, other)
            yield without_calls(left, row.words[0], row.words[1])
        if row.form == "attribute" and row.parts:
            yield replaced(tree, path, row.having(parts=()))


def fewer_parts(tree):
    """Trees with fewer items of blocks, bindings of lets and branches of cases; halves of them first."""
    for path, whole in by_size(paths_of(tree, "block", "let", "case")):
        first, last = {"block": (0, len(whole.parts)), "let": (0, len(whole.parts) - 1), "case": (1, len(whole.parts))}[whole.form]
        count = last - first
        size = count
        while size:
            for start in range(first, last, size):
                parts = whole.parts[:start] + whole.parts[min(start + size, last) :]
                if len(parts) > (0 if whole.form == "block" else 1):
                    yield replaced(tree, path, whole.having(parts=parts))
            size //= 2


def inner_expressions(part):
    """The expressions that stand in an expression, without one between."""
    for inner in part.parts:
        if inner.is_expression:
            yield inner
        else:
            yield from inner_expressions(inner)


def smaller_expressions(tree):
    for path, part in by_size([row for row in walk(tree) if row[1].is_expression]):
        if part.parts:
            yield from (replaced(tree, path, inner) for inner in by_inner(part))
        if part.size() > 1 or part.form == "name":
            yield from (replaced(tree, path, leaf) for leaf in LEAVES)
        if part.form == "static":
            yield replaced(tree, path, Tree("call", part.words[:1], part.parts, part.type))
        if part.form == "call" and part.parts[0].form != "name":
            yield replaced(tree, path, part.having(parts=[name("self"), *part.parts[1:]]))
        if part.form == "call":
            yield replaced(tree, path, Tree("own", part.words, part.parts[1:], part.type))
        if part.type and part.parts and part.type not in DEFAULTS:
            yield replaced(tree, path, value_of(part.type))
    for path, part in paths_of(tree, "binding"):
        if part.parts:
            yield replaced(tree, path, part.having(parts=()))


def by_inner(part):
    """What stands in an expression, the smallest first, and what stands in that."""
    found = sorted(inner_expressions(part), key=Tree.size)
    return found + [it for inner in found for it in inner_expressions(inner)]


def fewer_formals(tree):
    for _, of in paths_of(tree, "method"):
        for at in range(len(of.parts) - 1):
            yield without_formal(tree, of.words[0], at)


def without_formal(tree, word, at):
    """The tree without a formal of the methods of a name, and without its arguments."""
    def change(part):
        if part.form not in ("method", "own", "call", "static") or part.words[0] != word:
            return part
        place = at + (part.form in ("call", "static"))
        most = len(part.parts) - (part.form == "method")
        return part.having(parts=part.parts[:place] + part.parts[place + 1 :]) if place < most else part
    return mapped(tree, change)


def simpler_words(tree):
    for path, part in walk(tree):
        if part.form == "class" and part.words[1]:
            above = {it.words[0]: it.words[1] for it in tree.parts}.get(part.words[1], "")
            for parent in sorted({"", above, "IO"} - {part.words[1]}):
                yield replaced(tree, path, part.having([part.words[0], parent]))
        elif part.form in ("method", "attribute", "formal", "binding", "branch"):
            for type in ("Int", "Object", "SELF_TYPE"):
                if type != part.words[1]:
                    yield replaced(tree, path, part.having([part.words[0], type]))
        elif part.form in ("new", "static") and part.words[-1] != "Object":
            yield replaced(tree, path, part.having([*part.words[:-1], "Object"]))
        elif part.form == "constant":
            yield from (replaced(tree, path, constant(text, part.type)) for text in shorter_constants(part.words[0]))
        elif part.form in ("+", "-", "*", "/", "<", "<="):
            simple = "+" if part.form in "-*/" else "<"
            if part.form != simple:
                yield replaced(tree, path, Tree(simple, (), part.parts, part.type))


def shorter_constants(text):
    if text.startswith('"') and len(text) > 3:
        middle = len(text) // 2
        yield from ('""', '"a"', text[:middle] + '"', '"' + text[middle:])
        yield from (text[:at] + text[at + 1 :] for at in range(1, len(text) - 1))
    elif text.isdigit() and text not in ("0", "1"):
        yield from ("0", "1", "2", text[1:], text[:-1])


def shorter_names(tree):
    """The tree with one name in its short form, wherever it stands."""
    taken = {word for _, part in walk(tree) for word in part.words}
    for path, part in walk(tree):
        if part.form == "class" and len(part.words[0]) > 1 and part.words[0] != "Main":
            yield from (renamed_class(tree, part.words[0], letter) for letter in SHORT["class"] if letter not in taken)
        elif part.form in ("method", "attribute", "formal", "binding", "branch") and len(part.words[0]) > 1 and part.words[0] not in ("main", "self"):
            letters = SHORT["method" if part.form == "method" else "name"]
            yield from (renamed(tree, part.words[0], letter) for letter in letters if letter not in taken)


def renamed(tree, old, new):
    """The tree with another name of objects and methods."""
    def change(part):
        return part.having([new if at == 0 and word == old else word for at, word in enumerate(part.words)]) if part.form != "constant" else part
    return mapped(tree, change)


PASSES = (fewer_classes, fewer_features, fewer_parts, smaller_expressions, fewer_formals, simpler_words, shorter_names)


class Shrinker:
    """Makes a sample smaller while `holds` is true of it, for some seconds at most, and counts what it tried."""

    def __init__(self, holds, seconds):
        self.holds, self.end, self.tried = holds, time.monotonic() + seconds, set()

    def take(self, best, other):
        """The other sample, where it is smaller and the same holds of it, or else None."""
        if other.weight >= best.weight or (other.text, other.input) in self.tried or time.monotonic() > self.end:
            return None
        self.tried.add((other.text, other.input))
        return other if self.holds(other) else None

    def over(self, best, others):
        """The sample after one way to make it smaller: each step goes on where the last one was."""
        at, found = 0, others(best)
        while time.monotonic() < self.end:
            other = next(found, None)
            if other is None:
                break
            taken = self.take(best, other)
            if taken:
                best, found = taken, itertools.islice(others(taken), at, None)
            else:
                at += 1
        return best

    def shrunk(self, best):
        """A sample from which nothing can be taken in any of these ways."""
        one = best.having(first=0)
        best = self.plainer(one if best.first and self.holds(one) else best)
        before = None
        while before is not best and time.monotonic() < self.end:
            before = best
            if best.tree:
                for way in PASSES:
                    best = self.over(best, lambda it, way=way: (it.having(tree=tree) for tree in way(it.tree) if tree))
            else:
                best = self.over(self.over(best, token_structures), token_ranges)
            best = self.over(best, shorter_inputs)
        return self.over(best.having(tree=None), token_ranges) if best.tree and not best.odd and not best.first else best

    def plainer(self, best):
        """The sample with as little as can be that is not plain between its tokens and in the letters of its keywords."""
        low = lowered(best.tokens)
        for other in (best.having(spelled={}, gaps=None, found=low), best.having(gaps=None), best.having(spelled={}, found=low)):
            if best.gaps or best.spelled:
                best = self.take_plainer(best, other)
        if best.gaps:
            best = self.fewer_gaps(best)
        return self.over_plainer(best, fewer_spelled)

    def take_plainer(self, best, other):
        return other if other.text != best.text and self.holds(other) else best

    def over_plainer(self, best, others):
        for other in others(best):
            best = self.take_plainer(best, other)
        return best

    def fewer_gaps(self, best):
        """The sample with those gaps alone for which it still holds; as a rule by the tokens beside them, so that the rest can go."""
        plain, gaps = layout.plain(best.tokens), list(best.gaps)
        size = len(gaps)
        while size and time.monotonic() < self.end:
            for start in range(0, len(gaps), size):
                other = gaps[:start] + plain[start : start + size] + gaps[start + size :]
                if other != gaps and self.holds(best.having(gaps=other)):
                    gaps = other
            size //= 2
        found = [*best.tokens, ""]
        odd = [(found[at], found[at + 1], gap) for at, gap in enumerate(gaps) if gap != plain[at]]
        other = best.having(gaps=None, odd=odd)
        if self.holds(other):
            return other
        return best if best.first else best.having(gaps=gaps, tree=None)


def lowered(found):
    return [token.lower() if token.lower() in layout.KEYWORDS else token for token in found]


def fewer_spelled(best):
    for word in sorted(best.spelled):
        yield best.having(spelled={other: how for other, how in best.spelled.items() if other != word})


PAIRS = {"{": "}", "(": ")", "if": "fi", "while": "pool", "case": "esac"}


def pairs(found):
    """The places of words and signs that open and close something, the longest first. What does not match is passed over."""
    opened, closed = [], []
    for at, token in enumerate(found):
        token = token.lower()
        if token in PAIRS:
            opened.append(at)
        elif opened and token == PAIRS[found[opened[-1]].lower()]:
            closed.append((opened.pop(), at))
    return sorted(closed, key=lambda pair: pair[0] - pair[1])


def rows(found):
    """The ranges that end with a `;`, the longest first: classes, features, items."""
    starts, ranges = [0], []
    for at, token in enumerate(found):
        token = token.lower()
        if token in ("{", "(", "of"):
            starts.append(at + 1)
        elif token in ("}", ")", "esac") and starts[1:]:
            starts.pop()
        elif token == ";":
            ranges.append((starts[-1], at))
            starts[-1] = at + 1
    return sorted(ranges, key=lambda row: row[0] - row[1])


def token_structures(best):
    """Samples without a row of their tokens, or with a small expression in the place of what is in brackets."""
    found = best.tokens

    def cut(start, end, *news):
        gaps = best.gaps and [*best.gaps[:start], *(" " for _ in news), *best.gaps[end + 1 :]]
        return best.having(tree=None, found=[*found[:start], *news, *found[end + 1 :]], gaps=gaps)
    for start, end in rows(found):
        yield cut(start, end)
    for start, end in pairs(found):
        for news in ((), ("0",), ("self",), ("true",)):
            yield cut(start, end, *news)
            if end > start + 1:
                yield cut(start + 1, end - 1, *news)


def token_ranges(best):
    """Samples without a range of their tokens, long ranges first."""
    found, size = best.tokens, len(best.tokens) // 2
    while size:
        step = max(1, size // 2)
        for start in range(0, len(found) - size + 1, step):
            gaps = best.gaps and best.gaps[:start] + best.gaps[start + size :]
            yield best.having(tree=None, found=found[:start] + found[start + size :], gaps=gaps)
        size = size // 2
    if best.tree is None:
        yield from shorter_tokens(best)


def shorter_tokens(best):
    for at, token in enumerate(best.tokens):
        others = shorter_constants(token) if token[:1] in '"0123456789' else ()
        yield from (best.having(tree=None, found=[*best.tokens[:at], other, *best.tokens[at + 1 :]]) for other in others)


def shorter_inputs(best):
    lines = best.input.splitlines(keepends=True)
    if lines:
        yield best.having(input=b"")
    for count in (1, 2, 4, 8, len(lines) // 2, len(lines) - 1):
        if 0 < count < len(lines):
            yield best.having(input=b"".join(lines[:count]))
            yield best.having(input=b"1\n" * count)
