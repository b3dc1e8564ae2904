"""Shared by `map`: the public functions of a crate, each with the first sentence of its comment, read from the lines of its sources."""
import re

from sources import paths, read

BLOCK = re.compile(r"(?:pub )?(?:impl(?:<[^>]*>)? (\w+)|trait (\w+)|mod )")
FUNCTION = re.compile(r"( *)(pub )?(?:const )?fn «?(\w+)")


def public_names(root):
    """The names that the root of a crate makes public, by the module of each; None in the root and in a module that is public as a whole."""
    text, found = read(root), {"": None}
    for group in re.findall(r"(?m)^pub use ([^;]+);", text):
        for path, name in paths(" ".join(group.split()).replace("::", ".")):
            found.setdefault(path.rpartition(".")[0], set()).add(name)
    for module in re.findall(r"(?m)^pub mod (\w+);", text):
        found[module] = None
    return found


def file_of(root, module, names):
    """The file of a module, or of the module in which it stands."""
    folder = root.rpartition("/")[0]
    while module:
        name = "%s/%s.rt" % (folder, module.replace(".", "/"))
        if name in names:
            return name
        module = module.rpartition(".")[0]
    return root


def first_sentence(lines):
    paragraph = " ".join(lines).partition("  ")[0]
    return re.split(r"(?<=\.)\s", paragraph)[0]


def documented(text):
    """Each function of a file that has a comment: whether it says `pub`, its type or trait if it has one, its name, and the comment's first sentence."""
    owner, in_trait, doc, in_attribute = "", False, [], False
    for line in text.split("\n"):
        block, function = BLOCK.match(line), FUNCTION.match(line)
        if line.lstrip().startswith("///"):
            doc.append(line.strip()[3:].strip())
            continue
        in_attribute = line.lstrip().startswith("#[") or in_attribute
        if in_attribute:
            in_attribute = not line.rstrip().endswith("]")
            continue
        if block and " for " not in line:
            owner, in_trait = block[1] or block[2] or "", bool(block[2])
        elif line == "}":
            owner, in_trait = "", False
        elif function and doc and not function[3].startswith("law_"):
            yield bool(function[2]) or in_trait, owner if function[1] else "", function[3], first_sentence(doc)
        doc = []


def functions(root, names):
    """The public functions of a crate: their names, of methods with that of their type, and their first sentences."""
    found = []
    for module, public in sorted(public_names(root).items()):
        for is_public, owner, name, words in documented(read(file_of(root, module, names))):
            if is_public and (public is None or (owner or name) in public):
                found.append(("%s::%s" % (owner, name) if owner else name, words))
    return sorted(set(found))
