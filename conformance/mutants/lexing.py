"""The lexer of the small compiler (the one that mutants change) converts the bytes of a file to tokens."""

KEYWORDS = "class else false fi if in inherits isvoid let loop pool then while case esac new of not true".split()
SIGNS = ("<-", "<=", "=>", "{", "}", "(", ")", ":", ";", ",", ".", "@", "~", "*", "/", "+", "-", "<", "=")
WHITE = " \n\f\r\t\v"
ESCAPES = {"b": "\b", "t": "\t", "n": "\n", "f": "\f"}
MOST_STRING = 65535
MOST_INT = 2147483647


class Fault(Exception):
    """A fault of the program, by the words that name it."""


class Token:
    """A token: its kind (`sign`, `word`, `type`, `name`, `int`, `string`, `end`), its text, which of a string is what it denotes, and its line."""

    def __init__(self, kind, text, line):
        self.kind, self.text, self.line = kind, text, line


def is_letter(c):
    return "a" <= c <= "z" or "A" <= c <= "Z"


def is_digit(c):
    return "0" <= c <= "9"


def is_part(c):
    return is_letter(c) or is_digit(c) or c == "_"


class Lexer:
    """Reads a text, one lexeme after the other. Bytes stand for letters: the text has each as the letter of its number."""

    def __init__(self, text):
        self.text, self.at, self.line = text, 0, 1

    def ahead(self, count=1):
        return self.text[self.at : self.at + count]

    def take(self):
        c = self.text[self.at]
        self.at += 1
        if c == "\n":
            self.line += 1
        return c

    def tokens(self):
        found = []
        while self.at < len(self.text):
            token = self.lexeme()
            if token:
                found.append(token)
        found.append(Token("end", "", self.line))
        return found

    def lexeme(self):
        """The next token, or None where white space or a comment stood there."""
        c = self.ahead()
        if c in WHITE:
            self.take()
            return None
        if self.ahead(2) == "--":
            self.line_comment()
            return None
        if self.ahead(2) == "(*":
            self.block_comment()
            return None
        if self.ahead(2) == "*)":
            raise Fault("comment not opened")
        if c == '"':
            return self.string()
        if is_digit(c):
            return self.number()
        if is_letter(c):
            return self.word()
        for sign in SIGNS:
            if self.text.startswith(sign, self.at):
                line = self.line
                self.at += len(sign)
                return Token("sign", sign, line)
        raise Fault("unknown character")

    def line_comment(self):
        while self.at < len(self.text) and self.ahead() != "\n":
            self.take()

    def block_comment(self):
        depth = 0
        while True:
            if self.at >= len(self.text):
                raise Fault("comment not closed")
            if self.ahead(2) == "(*":
                depth += 1
                self.at += 2
            elif self.ahead(2) == "*)":
                depth -= 1
                self.at += 2
                if depth == 0:
                    return
            else:
                self.take()

    def string(self):
        line, items = self.line, []
        self.take()
        while True:
            if self.at >= len(self.text):
                raise Fault("string not closed")
            c = self.take()
            if c == '"':
                break
            if c == "\0":
                raise Fault("null byte in string")
            if c == "\n":
                raise Fault("string not closed")
            items.append(self.escape() if c == "\\" else c)
        if len(items) > MOST_STRING:
            raise Fault("string too long")
        return Token("string", "".join(items), line)

    def escape(self):
        if self.at >= len(self.text):
            raise Fault("string not closed")
        c = self.take()
        if c == "\0":
            raise Fault("null byte in string")
        return ESCAPES.get(c, c)

    def number(self):
        line, start = self.line, self.at
        while self.ahead() and is_digit(self.ahead()):
            self.take()
        text = self.text[start : self.at]
        if int(text) > MOST_INT:
            raise Fault("integer too large")
        return Token("int", text, line)

    def word(self):
        line, start = self.line, self.at
        while self.ahead() and is_part(self.ahead()):
            self.take()
        text = self.text[start : self.at]
        small = text.lower()
        if small in KEYWORDS and not (small in ("true", "false") and "A" <= text[0] <= "Z"):
            return Token("word", small, line)
        return Token("type" if "A" <= text[0] <= "Z" else "name", text, line)
