"""Used by `tidy`: finds scripts of the web pages that use a name of a script that is loaded later. It reads the scripts by patterns only.

The scripts of a page are not modules, so they share all names. A name that a script also binds locally, for example as a parameter, is not checked.
"""
import re

from sources import ROOT, read

MADE = re.compile(r"(?:\w+-)?module\.js|examples\.js|help\.js|rules\.js")
# Comments, strings and regular expressions, which are not code. A template is code in its braces.
QUOTED = re.compile(r'(?m)(?:^ *|(?<=[;,{}()]) )//.*$|"(?:[^"\\\n]|\\.)*"|/(?![ */])(?:[^/\\\n\[]|\\.|\[[^\]\n]*\])+/')
TEMPLATE = re.compile(r"`[^`]*`")
BINDS = re.compile(
    r"""(?mx) \b(?:const|let)\ (.*?)(?=\ =\ |\ of\ |;|$) | ,\ (\w+)\ =\  | \(([^()]*)\)\ => | (\w+)\ =>
    | (?:function\ |^\ +(?:async\ |static\ |get\ )*(?!(?:if|for|while|switch)\b))(\w+\([^()]*\))(?=\ \{)"""
)
USED = re.compile(r"(?<![\w.$])([A-Za-z_]\w*)\b(?!:)")


def given(code):
    """The names that a script defines."""
    names = set(re.findall(r"(?m)^(?:async )?(?:function|class) (\w+)", code))
    for line in re.findall(r"(?m)^(?:const|let) (.*)$", code):
        names.update(re.findall(r"[A-Za-z_]\w*", line.partition(" = ")[0]))
        if "=>" not in line:
            names.update(re.findall(r", ([A-Za-z_]\w*)(?= = |[,;])", line))
    return names


def used(code):
    """The names that a script uses and does not bind."""
    bound = re.findall(r"\w+", " ".join(" ".join(it) for it in BINDS.findall(code)))
    return set(USED.findall(code)) - set(bound)


def loaded():
    """The pages of web/, with the scripts that each loads, in order."""
    return {path.name: re.findall(r'<script src="([^"]+)"', read("web/" + path.name)) for path in sorted((ROOT / "web").glob("*.html"))}


def upward(scripts):
    """The scripts of a page that use a name of a later one, each with that one and the name."""
    codes = {}
    for name in scripts:
        if not MADE.fullmatch(name):
            code = QUOTED.sub('""', read("web/" + name))
            codes[name] = TEMPLATE.sub(lambda it: " ".join(re.findall(r"\$\{([^`]*?)\}", it[0])), code)
    names, found = list(codes), []
    for at, name in enumerate(names):
        wanted = used(codes[name]) - given(codes[name])
        found += [(name, later, word) for later in names[at + 1 :] for word in sorted(wanted & given(codes[later]))]
    return found
