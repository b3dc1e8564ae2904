"""Shared by `map`, `reach` and `tidy`: the files in git, their first sentences, and what definitions depend on."""
import pathlib
import re
import subprocess

ROOT = pathlib.Path(__file__).resolve().parent.parent
# Files of single functions, and files that only list others, need no description.
UNSAID = ("Lib.antt", "Answers.antt", "Invariants.antt", "Proof.antt")
# The main theorem about `run`: a record, and the field by which a call of `run` promises it.
HEADLINE = ("crates/cool_driver/specs/Headline.antt", "Headline"), ("crates/cool_driver/specs/commands/Run.antt", "RunEnds", "headline")
# How a comment begins, by the end of a file's name.
MARKS = {".rt": "//! ?", ".antt": "-- ?", ".js": "// ?", ".cjs": "// ?", ".c": r"(?://|/\*) ?", ".css": r"/\* ?", ".el": ";+ ?", ".lua": "-- ?", ".vim": '" ?'}
PART = re.compile(r"(?:◌|\{|\}|\[|\]|\(|\)|,|;|λ|\.(?=\s)|\s)+")


def listed(*paths):
    """The names of the files below these paths that git has, or would add."""
    words = ["git", "-C", str(ROOT), "ls-files", "-z", "--cached", "--others", "--exclude-standard", "--", *paths]
    out = subprocess.run(words, stdout=subprocess.PIPE, check=True).stdout.decode("utf-8", "surrogateescape")
    return [name for name in sorted(set(out.split("\0"))) if name and (ROOT / name).is_file()]


def read(name):
    return (ROOT / name).read_text("utf-8")


def crates():
    """The names of the crates, the lowest first."""
    return re.findall(r"(?m)^(\w+):", read("crates.txt"))


def comment(name, text):
    """The first comment of a source of this name, as lines."""
    string = re.match(r'(?:#!.*\n)?"""((?:[^"]|"(?!""))*)"""', text)
    if string:
        return [line.strip() for line in string[1].split("\n")]
    usual = MARKS[".js"] if re.match(r"#!.*\bnode\n", text) else "# ?"
    mark, lines = MARKS.get(name[name.rfind(".") :], usual), []
    for line in re.sub(r"\A(?:#!|#compdef).*\n", "", text[:5000]).split("\n"):
        found = re.match(mark, line)
        if not found:
            break
        lines.append(re.sub(r"(?: ?\*/| +-\*-.*)$", "", line[found.end() :]).strip())
    return lines


def sentence(name, text):
    """The first sentence of the first comment, on one line; '' if there is no comment."""
    paragraph = []
    for line in comment(name, text):
        if not line and paragraph:
            break
        paragraph += [line] if line else []
    return re.split(r"(?<=\.)\s", " ".join(paragraph))[0]


def paths(group, before=""):
    """The paths that an import names, with its groups taken apart, each with the name that it has here."""
    start = group.find("{")
    if start < 0:
        path, _, other = (before + group.strip()).partition(" as ")
        return [(path.strip(), other.strip() or path.rpartition(".")[2].strip())]
    found, depth, part = [], 0, ""
    for letter in group[start + 1 : group.rfind("}")] + ",":
        depth += {"{": 1, "}": -1}.get(letter, 0)
        if letter == "," and not depth:
            found += paths(part, before + group[:start].strip()) if part.strip() else []
            part = ""
        else:
            part += letter
    return found


def plain(text):
    """The text without comments and strings."""
    return re.sub(r'--.*|"(?:[^"\\\n]|\\.)*"', "", text)


class Definitions:
    """The definitions of the files of specs/, and which of them each one names."""

    def __init__(self, names):
        self.texts = {name: plain(read(name)) for name in names if re.match(r"crates/\w+/specs/.+\.antt$", name)}
        self.modules = {"Rattle." + name[len("crates/") : -len(".antt")].replace("/", "."): name for name in self.texts}
        self.items, self.parts, self.given, self.known, self.fields, self.imports = {}, {}, {}, {}, {}, {}
        for name, text in self.texts.items():
            self.split(name, text)

    def split(self, file, text):
        """Takes a file apart: its definitions with their texts, what each name in it means, and its imports."""
        known, fields, imports = (kind.setdefault(file, {}) for kind in (self.known, self.fields, self.imports))
        for use in re.findall(r"(?m)^(?:pub )?use (Rattle\..+(?:\n .+)*)$", text):
            for path, here in paths(use):
                imports[here] = path
        parts = re.split(r"(?m)^module _ (.*) where\n((?:  .*\n|\n)+)", text)
        for before, given, inside in zip(parts[::3], [*parts[1::3], ""], [*parts[2::3], ""]):
            self.split_part(file, before, "", known, fields)
            self.split_part(file, re.sub("(?m)^  ", "", inside), given, known, fields)

    def split_part(self, file, text, given, known, fields):
        """Takes definitions apart that have the same parameters, those of their module."""
        heads = r"(?m)^(?=(?:pub (?!use|mod)|unfoldable |abbrev |pattern |mutual\b|data |record )|(?!unfolding)[^\s()]+ : )"
        for body in re.split(heads, text)[1:]:
            words = r"(?:pub |unfoldable |abbrev |pattern |mutual\b\s*|data |record )*([^\s(){}]+)"
            first = re.match(words, body)[1]
            self.items[file, first], self.given[file, first] = body, given
            lines = r"(?m)^\s*(?:(?:pub|unfoldable|abbrev|pattern|data|record) )*([^\s(){}]+)(?= :| \(.*\) :| \{.*\} :)"
            known.setdefault(first, first)
            self.parts[file, first] = re.findall(lines, body)
            for name in self.parts[file, first]:
                (fields if re.match(r"(?:pub )?record ", body) else known).setdefault(name, first)

    def at(self, path):
        """The definition that a path leads to, where it is one of these; a module without a name is (file, None)."""
        module, rest = path, []
        while module and module not in self.modules:
            module, _, last = module.rpartition(".")
            rest.insert(0, last)
        if not module:
            return None
        file = self.modules[module]
        for name in rest:
            for names in (self.known[file], self.fields[file]):
                if name in names:
                    return file, names[name]
            if name in self.imports[file]:
                return self.at(self.imports[file][name])
        return (file, None) if not rest else None

    def named(self, file, text):
        """The definitions that a text of this file names."""
        placed = {}
        for name in [*self.known[file], *self.imports[file]]:
            for piece in filter(None, name.split("◌")) if "◌" in name else ():
                placed[piece] = name
        for word in set(PART.split(text)):
            head, *tail = (word.rstrip(":") or word).split(".")
            head = placed.get(head, head)
            if head in self.known[file]:
                yield file, self.known[file][head]
            elif head in self.imports[file]:
                found = self.at(self.imports[file][head])
                if found and found[1] is None:
                    found = self.at(".".join([self.imports[file][head], *tail[:1]]))
                if found and found[1]:
                    yield found

    def reached(self, *roots):
        """The definitions to which these lead, with themselves: each a file and a name, and perhaps a field that alone counts."""
        found, due = set(), []
        for file, name, *field in roots:
            if (file, name) not in self.items or not set(field) <= set(self.parts[file, name]):
                raise LookupError("%s has no %s: correct HEADLINE in tools/sources.py, the main theorem about `run`" % (file, ".".join([name, *field])))
            found.add((file, name))
            due += self.named(file, self.field(file, name, *field) if field else self.items[file, name] + self.given[file, name])
        while due:
            item = due.pop()
            if item not in found:
                found.add(item)
                due += self.named(item[0], self.items[item] + self.given[item])
        return found

    def field(self, file, name, field):
        """The text of a field of a record, if it has it."""
        start = self.items[file, name].find("\n  pub %s : " % field)
        return self.items[file, name][start + 1 :].partition("\n  pub ")[0] if start >= 0 else ""
