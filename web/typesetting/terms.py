"""Substitution in the trees of definitions, matching of rows, and fresh names."""

CONSTRUCTORS = {"true", "false", "zero", "suc", "pos", "negsuc", "tt", "[]", "⊥", "_"}


def var(name):
    return ("var", name)


def app(name, *given):
    return ("app", var(name), list(given))


def head_of(tree):
    """The name at the head of a tree and its arguments, or (None, []) if it has no such name."""
    if tree[0] == "var":
        return tree[1], []
    if tree[0] == "app" and tree[1][0] == "var":
        return tree[1][1], tree[2]
    return None, []


def is_variable(tree, globals_):
    return tree[0] == "var" and not is_constructor(tree[1]) and tree[1] not in globals_


def is_constructor(name):
    return name in CONSTRUCTORS or name.split(".")[-1][:1].isupper()


def changed(tree, with_):
    """The tree with `with_` applied to each of its direct parts."""
    kind = tree[0]
    if kind in ("var", "num", "str"):
        return tree
    if kind == "app":
        head, given = with_(tree[1]), [with_(it) for it in tree[2]]
        return ("app", head[1], head[2] + given) if head[0] == "app" else ("app", head, given)
    if kind == "op":
        return ("op", tree[1], with_(tree[2]), with_(tree[3]))
    if kind == "get":
        return ("get", with_(tree[1]), tree[2])
    if kind in ("all", "some"):
        return (kind, tree[1], with_(tree[2]))
    if kind == "fun":
        return ("fun", tree[1], with_(tree[2]))
    if kind == "if":
        return ("if", *(with_(it) for it in tree[1:]))
    if kind == "do":
        return ("do", [(name, with_(it)) for name, it in tree[1]])
    if kind == "let":
        return ("let", tree[1], with_(tree[2]), with_(tree[3]))
    if kind == "record":
        return ("record", tree[1] and with_(tree[1]), [(name, with_(it)) for name, it in tree[2]])
    return ("pair", [with_(it) for it in tree[1]])


def put(tree, given):
    """Replaces variables in a tree by trees. A field of a record that replaces a variable is evaluated."""
    if not given:
        return tree
    if tree[0] == "var":
        found = given.get(tree[1])
        return put(found, {k: v for k, v in given.items() if k != tree[1]}) if found is not None else tree
    tree = changed(tree, lambda it: put(it, given))
    if tree[0] == "get" and tree[1][0] == "record":
        for name, it in tree[1][2]:
            if name == tree[2]:
                return it
    if tree[0] == "get" and tree[1][0] == "pair":
        return tree[1][1][int(tree[2])]
    return tree


def names_in(tree, found=None):
    found = set() if found is None else found
    if tree[0] == "var":
        found.add(tree[1])
    if tree[0] in ("all", "some"):
        found.update(name for name, _ in tree[1])
    if tree[0] == "fun":
        found.update(tree[1])
    if tree[0] == "do":
        found.update(name for name, _ in tree[1] if name)
    changed(tree, lambda it: names_in(it, found) and it or it)
    return found


def renamed(tree, names):
    """Renames variables in a tree, also bound ones."""
    if tree[0] == "var":
        return var(names.get(tree[1], tree[1]))
    tree = changed(tree, lambda it: renamed(it, names))
    if tree[0] in ("all", "some"):
        return (tree[0], [(names.get(name, name), kind) for name, kind in tree[1]], tree[2])
    if tree[0] == "fun":
        return ("fun", [names.get(name, name) for name in tree[1]], tree[2])
    if tree[0] == "do":
        return ("do", [(names.get(name, name), it) for name, it in tree[1]])
    return tree


def fresh_names(names, taken):
    """Maps names to unused names, by adding primes to those that are taken."""
    found = {}
    for name in sorted(names):
        other = name
        while other in taken:
            other += "'"
        taken.add(other)
        if other != name:
            found[name] = other
    return found


def matched(pattern, tree, globals_, bound, put_in, equal=None):
    """Whether the pattern matches the tree. The values of its variables are added to `bound`, and the values that variables of the tree must have to `put_in`.
    If calls may match constructors, the trees that these calls must be equal to are added to `equal`."""
    if pattern == ("var", "_"):
        return True
    if pattern[0] == "var" and not is_constructor(pattern[1]):
        bound[pattern[1]] = tree
        return True
    if is_variable(tree, globals_):
        put_in[tree[1]] = pattern
        return True
    if pattern[0] == "op" and tree[0] == "op" and pattern[1] == tree[1]:
        return all(matched(pattern[at], tree[at], globals_, bound, put_in, equal) for at in (2, 3))
    (name, given), (other, args) = head_of(pattern), head_of(tree)
    if equal is not None and name is not None and (other is None or not is_constructor(other)):
        equal.append((tree, pattern))
        return True
    if name is None or name != other or len(given) != len(args):
        return False
    return all(matched(a, b, globals_, bound, put_in, equal) for a, b in zip(given, args))
