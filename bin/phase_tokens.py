"""Converts the tokens that `cool_editor --tokens` prints to the text format of Cool courses, and tokens in that format back to Cool.

docs/phases.md describes both formats.
"""
import os
import re
import subprocess
import sys
import tempfile
from collections import namedtuple

HERE = os.path.dirname(os.path.realpath(__file__))
UNREAD = 10

KEYWORDS = {
    b"class": b"CLASS", b"else": b"ELSE", b"fi": b"FI", b"if": b"IF", b"in": b"IN", b"inherits": b"INHERITS", b"let": b"LET", b"loop": b"LOOP",
    b"pool": b"POOL", b"then": b"THEN", b"while": b"WHILE", b"case": b"CASE", b"esac": b"ESAC", b"of": b"OF", b"new": b"NEW", b"isvoid": b"ISVOID",
    b"not": b"NOT",
}
SIGNS = {b"<-": b"ASSIGN", b"<=": b"LE", b"=>": b"DARROW"}
# How Cool writes a token that has no value, by the word for it in the courses.
SPELLINGS = {word: spelling for spelling, word in [*KEYWORDS.items(), *SIGNS.items()]}
ESCAPES = {b"n": b"\n", b"t": b"\t", b"b": b"\b", b"f": b"\f"}
# The words of the courses for lexical errors of these kinds.
LEXICAL = {b"L3": b"String contains null character", b"L4": b"String constant too long", b"L5": b"EOF in comment", b"L6": b"Unmatched *)"}

# A token of the courses: its word, the line on which it ends, and its value as the courses write it, or b"".
Token = namedtuple("Token", "word line value")
# A line that the program prints for a token, for the end of a file, or for a lexical error: its word, its line and byte in the file, and its value.
Told = namedtuple("Told", "word line byte value")


class Unlike(Exception):
    """A text does not have the format that it should have."""


def quoted(data):
    """Bytes as the courses write them in a string."""
    known = {92: b"\\\\", 34: b'\\"', 10: b"\\n", 9: b"\\t", 8: b"\\b", 12: b"\\f"}
    return b"".join(known.get(b) or (b"%c" % b if 32 <= b <= 126 else b"\\%03o" % b) for b in data)


def unquoted(text):
    """The bytes that a string of the courses denotes."""
    def meant(found):
        code = found[1]
        return bytes([int(code, 8) & 255]) if len(code) == 3 else ESCAPES.get(code, code)
    return re.sub(rb"\\([0-7]{3}|.)", meant, text, flags=re.S)


# Asking the program

def ask(form, paths):
    """The lines that `cool_editor FORM` prints for files."""
    found = os.environ.get("COOL_EDITOR") or subprocess.run([HERE + "/../release/program", "cool_editor"], stdout=subprocess.PIPE).stdout.strip()
    if not found:
        sys.exit(125)
    done = subprocess.run([found, form, "--", *paths], stdout=subprocess.PIPE)
    if done.returncode:
        sys.exit(done.returncode)
    return done.stdout.split(b"\n")[:-1]


def place(word):
    """FILE:LINE:BYTE as three numbers."""
    return tuple(map(int, word.split(b":")))


class FileTokens:
    """The tokens of some files: for each file its bytes, a list of Told, and the Told of its end or of its first lexical error."""

    def __init__(self, paths):
        self.texts = [read(path) for path in paths]
        self.tokens, self.last = [[] for _ in paths], [None] * len(paths)
        for line in ask("--tokens", paths):
            word, at, *value = line.split(b" ", 2)
            file, row, byte = place(at)
            told = Told(word, row, byte, value[0] if value else b"")
            if word in (b"end", b"fault"):
                self.last[file] = told
            else:
                self.tokens[file].append(told)


def read(path):
    try:
        with open(path, "rb") as file:
            return file.read()
    except OSError as error:
        sys.stderr.write("%s: %s: %s\n" % (os.path.basename(sys.argv[0]), path, error.strerror))
        sys.exit(UNREAD)


# Tokens of the courses

def end_of_string(text, at):
    """The byte behind the string that begins with the quote at a byte: behind its closing quote, behind the newline that cuts it off, or the end of the text.
    The program prints the value of a string, but not its length in the text."""
    found = re.compile(rb'(?:[^"\n\\]|\\.)*(?:"|\n|\\?$)', re.S).match(text, at + 1)
    return found.end() if found else len(text)


def digits(text, byte):
    """An integer as it is written at a byte of a text: the program prints its value."""
    return re.compile(rb"[0-9]+").match(text, byte)[0]


def course_token(text, told):
    """The Token for a Told of a text."""
    word, line, byte, value = told
    if word == b"keyword":
        return Token(b"BOOL_CONST", line, value) if value in (b"true", b"false") else Token(KEYWORDS[value], line, b"")
    if word == b"sign":
        return Token(SIGNS.get(value, b"'" + value + b"'"), line, b"")
    if word == b"string":
        return Token(b"STR_CONST", line + text.count(b"\n", byte, end_of_string(text, byte)), value[1:-1])
    if word == b"integer":
        return Token(b"INT_CONST", line, digits(text, byte))
    return Token({b"type": b"TYPEID", b"object": b"OBJECTID"}[word], line, value)


def tokens_of(path, longest):
    """The tokens of a file in the format of the courses, with an ERROR for each lexical error. The program prints the tokens before the first error of a
    text, so it is called again for each error, with the text before that point replaced by blanks."""
    text, found = read(path), []
    with tempfile.TemporaryDirectory() as folder:
        copy = os.path.join(folder, "text.cl")
        left = text
        while True:
            with open(copy, "wb") as file:
                file.write(left)
            told = FileTokens([copy])
            found += [limited(course_token(text, token), longest) for token in told.tokens[0]]
            word, line, byte, kind = told.last[0]
            if word == b"end":
                return found
            error, behind = error_token(text, line, byte, kind)
            found += [error] if error else []
            left = re.sub(rb"[^\n]", b" ", text[:behind]) + text[behind:]


def limited(token, longest):
    """The token, or an ERROR for a string of more bytes."""
    too_long = token.word == b"STR_CONST" and len(unquoted(token.value)) > longest
    return Token(b"ERROR", token.line, quoted(LEXICAL[b"L4"])) if too_long else token


def error_token(text, line, byte, kind):
    """The Token for a lexical error, if the courses have one, and the byte at which their lexers continue."""
    if kind == b"L1":
        return Token(b"ERROR", line, quoted(text[byte:byte + 1])), byte + 1
    if kind == b"L6":
        return Token(b"ERROR", line, quoted(LEXICAL[kind])), byte + 2
    if kind == b"L5":
        return Token(b"ERROR", line + text.count(b"\n", byte), quoted(LEXICAL[kind])), len(text)
    if kind == b"L7":
        return Token(b"INT_CONST", line, digits(text, byte)), byte + len(digits(text, byte))
    if kind == b"L8":
        return None, byte
    end = end_of_string(text, byte)
    message = LEXICAL.get(kind) or (b"Unterminated string constant" if text[end - 1:end] == b"\n" else b"EOF in string constant")
    return Token(b"ERROR", line + text.count(b"\n", byte, end), quoted(message)), end


def token_line(token, lines=True):
    value = b' "%s"' % token.value if token.word in (b"STR_CONST", b"ERROR") else b" " + token.value if token.value else b""
    return (b"#%d " % token.line if lines else b"") + token.word + value


def token_lines(name, tokens, lines=True):
    """The lines of a file of a name."""
    return [b'#name "%s"' % quoted(name)] + [token_line(token, lines) for token in tokens]


# From the text of the courses back to Cool

TOKEN = re.compile(rb"""(?:\#([0-9]{1,9})\s+)?('[^']'|[A-Z_]+)(?:\s+(.*))?""", re.S)
NAMED = re.compile(rb'#name\s+"(.*)"')


def read_tokens(data):
    """The files of a text of tokens: (name, tokens) each."""
    files = []
    for number, line in enumerate(data.split(b"\n"), 1):
        line = line.strip()
        if not line:
            continue
        named = NAMED.fullmatch(line)
        if named:
            files.append((unquoted(named[1]), []))
            continue
        found = TOKEN.fullmatch(line)
        if not found:
            raise Unlike("line %d is no token: %s" % (number, line[:60].decode("utf8", "replace")))
        row, word, value = found.groups()
        if word in (b"STR_CONST", b"ERROR") and value is not None and len(value) > 1 and value[:1] == value[-1:] == b'"':
            value = value[1:-1]
        if not files:
            files.append((b"text.cl", []))
        files[-1][1].append(Token(word, int(row or 0), value or b""))
    return files


def spelled(token):
    """A token as Cool writes it."""
    if token.word == b"STR_CONST":
        return b'"' + in_source(unquoted(token.value)) + b'"'
    if token.word in SPELLINGS:
        return SPELLINGS[token.word]
    if token.word.startswith(b"'"):
        return token.word[1:-1]
    if token.word in (b"TYPEID", b"OBJECTID", b"INT_CONST", b"BOOL_CONST"):
        return token.value
    raise Unlike("no token of Cool: %s" % token.word.decode())


def in_source(data):
    """The bytes of a string as Cool writes them: a newline as an escape, every other byte except quote and backslash as it is."""
    known = {92: b"\\\\", 34: b'\\"', 10: b"\\n"}
    return b"".join(known.get(b) or b"%c" % b for b in data)


def laid_out(words):
    """The text of spelled tokens, each given as (line, token), where line 0 means any. A token stands on its line, or behind the previous token if that line
    is past."""
    out, row = [], 1
    for line, word in words:
        if line > row:
            out.append(b"\n" * (line - row))
            row = line
        elif out:
            out.append(b" ")
        out.append(word)
        row += word.count(b"\n")
    return b"".join(out) + b"\n"


def source_of_tokens(tokens):
    return laid_out([(token.line, spelled(token)) for token in tokens])
