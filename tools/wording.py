"""Used by `tidy`: the rules of "Plain words" in docs/style.md that a script can check, in comments of sources and in documents."""
import re

WIDTH = 160  # characters of a line of prose
MOST_WORDS = 40  # words of a sentence in the first comment of a file
# Files whose comments and lines are not yet rewritten. Remove a row when they are.
LATER = (
    "docs/map.md",
    "crates/mips_isa/specs/Machine.antt", "crates/mips_isa/proofs/RunsInParts.antt", "crates/mips_isa/proofs/DecodedIsItsWord.antt",
    "crates/cool_syntax/proofs/TreesOfLists.antt",
)
# A noun is missing if a comment or cell begins with one of these words. Questions are allowed, and adverbs that a comma or colon separates from a sentence.
STAND_IN = re.compile(r"(?:what|of|that of)\b(?!.*\?)|(?:for|by)\b(?! default)(?!.*[,:])", re.IGNORECASE)
COMMENT = re.compile(r"\s*(?:///?|//!|--)(?: |$)(.*)")
SCRIPT_COMMENT = re.compile(r'\s*(?://+ |#+ |;+ |/\*+ |""")(.*)')
# Folders and scripts whose comments and docstrings are not yet rewritten. Remove a row when they are.
SCRIPTS_LATER = (
    "bin/", "compare/", "conformance/", "editors/tests/stepping.py", "mistakes/", "release/",
)


def comments(text, form=COMMENT):
    """Yields each block of comments on separate lines: the number of its first line, and its lines."""
    block, first = [], 0
    for number, line in enumerate(text.split("\n") + [""], 1):
        found = form.match(line)
        if found:
            first = first if block else number
            block.append(found[1])
        elif block:
            yield first, block
            block = []


def cells(text):
    """The cells of the tables of a document, each with the number of its line: neither headings nor those that continue the row above."""
    lines = text.split("\n")
    for number, line in enumerate(lines, 1):
        row = [it.strip() for it in re.split(r"(?<!\\)\|", line)[1:-1]] if line.startswith("| ") else []
        if row and row[0] and not lines[number : number + 1][0].startswith("|--"):
            for cell in row:
                yield number, cell


def long_sentence(lines):
    """The number of words of the longest sentence of a comment. Indented lines and lists do not count."""
    paragraphs = "\n".join("" if line.startswith("  ") else line for line in lines).split("\n\n")
    sentences = (it for paragraph in paragraphs for it in re.split(r"(?<=[.:;?])\s|\n(?=\S+ +- )", paragraph))
    return max(len(it.split()) for it in sentences)


def unplain_scripts(scripts):
    """Yields the comments and docstrings of scripts that begin with a stand-in for a noun: the place, the problem, and what to do."""
    for name, text in scripts.items():
        for number, block in comments(text, SCRIPT_COMMENT) if not name.startswith(SCRIPTS_LATER) else ():
            if STAND_IN.match(" ".join(block)):
                yield "%s:%d" % (name, number), "a comment begins with %s" % block[0].split()[0], "begin with the missing noun (docs/style.md, 4 and 5)"


def unplain(texts, documents):
    """Breaches of the rules: the place, what is wrong, and what to do. The texts are those of crates; the documents are those that are not generated."""
    for name, text in texts.items():
        for number, block in comments(text) if not name.startswith(LATER) else ():
            place, words = "%s:%d" % (name, number), " ".join(block)
            if STAND_IN.match(words):
                yield place, "a comment begins with %s" % words.split()[0], "begin with the missing noun (docs/style.md, Plain words, 4 and 5)"
            if "want of memory" in words:
                yield place, "has the words want of memory", "write out of memory, or if memory runs out"
            if max(map(len, block)) > WIDTH:
                yield place, "a comment has a line of over %d characters" % WIDTH, "break the line"
    for name, text in documents.items():
        if not name.startswith(LATER):
            yield from unplain_document(name, text)


def unplain_document(name, text):
    for number, cell in cells(text):
        if STAND_IN.match(cell):
            yield "%s:%d" % (name, number), "a cell begins with %s: %s" % (cell.split()[0], cell), "begin with the missing noun (docs/style.md)"
    for number, line in enumerate(text.split("\n"), 1):
        if re.search(r"(?<!\")\bwant of memory\b", line):
            yield "%s:%d" % (name, number), "has the words want of memory", "write out of memory, or if memory runs out"
        if len(line) > WIDTH and not line.startswith(("|", "    ", "![", "<")):
            yield "%s:%d" % (name, number), "has %d characters" % len(line), "break the line before column %d" % WIDTH


def long_heads(texts):
    """First comments with a sentence that is too long."""
    for name, text in texts.items():
        number, lines = next(comments(text), (0, []))
        if number == 1 and not name.startswith(LATER) and long_sentence(lines) > MOST_WORDS:
            yield name, "its first comment has a sentence of %d words" % long_sentence(lines), "split it into two sentences"
