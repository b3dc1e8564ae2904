"""Single changes that make a program illegal: at least one for each kind of error of docs/faults.md, at a random place.

A change is a function of a tree and of chance, and gives a tree, or None where the program has no such place; those of CHANGES_OF_TOKENS are functions of
tokens. Whether what comes has that fault, the reference says.
"""
from layout import KEYWORDS
from trees import BASIC, Tree, at_path, constant, mapped, name, replaced, walk

VALUES = {"Int": constant("1", "Int"), "Bool": constant("true", "Bool"), "String": constant('"x"', "String")}
UNKNOWN, NO_NAME = "Missing", "missing"


def places(tree, *forms, when=lambda tree: True):
    return [path for path, part in walk(tree) if part.form in forms and when(part)]


def expressions(tree, when=lambda tree: True):
    return [path for path, part in walk(tree) if part.is_expression and when(part)]


def changed(tree, paths, chance, change):
    """The tree with one of these places changed."""
    if not paths:
        return None
    path = chance.one_of(paths)
    new = change(at_path(tree, path))
    return new and replaced(tree, path, new)


def added(tree, at, row):
    """The tree with a row at the end of what stands at a path."""
    whole = at_path(tree, at)
    return replaced(tree, at, whole.having(parts=(*whole.parts, row)))


def other_than(type, chance, tree=None):
    """An expression that does not conform to a type, whichever class it stands in, or None. Of a class it may be an object of the one above."""
    if type == "Object":
        return None
    rows = [value for of, value in VALUES.items() if of != type]
    if type in VALUES:
        rows += [Tree("new", ["Object"]), name("self"), Tree("while", (), [constant("false", "Bool"), constant("0", "Int")])]
    elif tree and type in classes(tree) and chance.happens(0.7):
        return Tree("new", [tree.parts[classes(tree)[type]].words[1] or "Object"])
    return chance.one_of(rows)


def joined(old, new, chance):
    """An expression that does not conform; or the one that does, joined with it by an `if` or a `case`."""
    if old is None or chance.happens(0.6):
        return new
    parts = chance.shuffled([old, new])
    if chance.happens(0.5):
        return Tree("if", (), [constant("true", "Bool"), *parts])
    rows = [Tree("branch", [word, type], [part]) for word, type, part in zip(("n_", "o_"), ("Int", "Object"), parts)]
    return Tree("case", (), [constant("1", "Int"), *rows])


def classes(tree):
    return {part.words[0]: at for at, part in enumerate(tree.parts)}


def new_class(name, parent="", *rows):
    return Tree("class", [name, parent], rows)


def method(word, type, body, *formals):
    return Tree("method", [word, type], [*(Tree("formal", row) for row in formals), body])


def with_parent(tree, chance, parents):
    return changed(tree, places(tree, "class"), chance, lambda of: of.having([of.words[0], chance.one_of(parents)]))


def renamed_class(tree, old, new):
    """The tree with another name for a class, wherever it stands."""
    def change(part):
        types = {"class": (0, 1), "static": (1,), "new": (0,)}.get(part.form, (1,) if len(part.words) == 2 else ())
        return part.having([new if at in types and word == old else word for at, word in enumerate(part.words)])
    return Tree("program", (), [mapped(part, change) for part in tree.parts])


def cycle(tree, chance):
    """A class that inherits from itself, or from one that inherits from it."""
    of, parents = chance.one_of(tree.parts), {part.words[0]: part.words[1] for part in tree.parts}
    below = [word for word in parents if of.words[0] in chain(word, parents)]
    return replaced(tree, (classes(tree)[of.words[0]],), of.having([of.words[0], chance.one_of(below)]))


def chain(word, parents):
    """A class and those above it, up to a basic one."""
    found = []
    while word in parents and word not in found:
        found.append(word)
        word = parents[word]
    return [*found, word or "Object"]


def feature_again(form):
    """A feature of a class that has its name twice."""
    def change(tree, chance):
        paths = places(tree, form)
        if not paths:
            return None
        path = chance.one_of(paths)
        return added(tree, path[:1], at_path(tree, path))
    return change


def attribute_below(tree, chance):
    """A class that defines an attribute anew which it inherits."""
    paths = places(tree, "attribute")
    if not paths:
        return None
    path = chance.one_of(paths)
    row, of = at_path(tree, path), tree.parts[path[0]]
    return added(tree, (), new_class("Below", of.words[0], Tree("attribute", [row.words[0], chance.one_of(BASIC)])))


def formals_of(tree, chance, change):
    """A method whose formals become what `change` gives."""
    def of_method(of):
        formals = change(list(of.parts[:-1]))
        return of.having(parts=[*formals, of.parts[-1]]) if formals else None
    return changed(tree, places(tree, "method", when=lambda of: len(of.parts) > 1), chance, of_method)


def formal_twice(formals):
    return [*formals, formals[0].having([formals[0].words[0], formals[-1].words[1]])]


def named_self(tree, chance):
    """A formal that has the name self, or one more attribute: without a name that the program uses, a compiler might refuse it for another reason."""
    if chance.happens(0.5):
        return added(tree, (chance.below(len(tree.parts)),), Tree("attribute", ["self", chance.one_of(BASIC)]))
    return changed(tree, places(tree, "formal"), chance, lambda row: row.having(["self", row.words[1]]))


def typed(tree, chance, forms, types):
    return changed(tree, places(tree, *forms), chance, lambda row: row.having([row.words[0], chance.one_of(types)]))


def signature(tree, chance):
    """A method that is defined anew with other types, or another number of formals; of a class of the program or a basic one."""
    paths = places(tree, "method", when=lambda of: of.words[0] != "main")
    rows = [(tree.parts[path[0]].words[0], at_path(tree, path)) for path in paths]
    basic = [("IO", method("out_int", "SELF_TYPE", name("self"), ("x", "Int"))), ("Object", method("type_name", "String", VALUES["String"]))]
    above, of = chance.one_of(rows + basic)
    parents = {part.words[0]: part.words[1] for part in tree.parts}
    # Below the class, or below one of those below it: the nearest definition above may be far.
    above = chance.one_of([above, *(word for word in parents if above in chain(word, parents))])
    formals = list(of.parts[:-1])
    sort = chance.below(3)
    if sort == 0:
        formals.append(Tree("formal", ["another", "Int"]))
    elif sort == 1 and formals:
        at = chance.below(len(formals))
        formals[at] = Tree("formal", [formals[at].words[0], "Object" if formals[at].words[1] != "Object" else "Int"])
    else:
        type = "Object" if of.words[1] != "Object" else "Int"
        return added(tree, (), new_class("Below", above, Tree("method", [of.words[0], type], [*formals, constant("1", "Int")])))
    loop = Tree("own", [of.words[0]], [name(formal.words[0]) for formal in formals])
    return added(tree, (), new_class("Below", above, Tree("method", of.words, [*formals, loop])))


def without_main(tree, chance):
    """A program whose Main has no method main of its own without formals."""
    at = classes(tree)["Main"]
    of = tree.parts[at]
    where = next(place for place, row in enumerate(of.parts) if row.form == "method" and row.words[0] == "main")
    row = of.parts[where]
    sort = chance.below(3)
    if sort == 0:
        new = row.having(parts=[Tree("formal", ["x_", "Int"]), *row.parts])
        return replaced(tree, (at, where), new)
    if sort == 1:
        return replaced(tree, (at, where), row.having(["main_", row.words[1]]))
    rows = of.parts[:where] + of.parts[where + 1 :]
    upper = of.having(["Upper", of.words[1]])
    return added(replaced(tree, (at,), of.having(["Main", "Upper"], ())), (), upper.having(parts=(*rows, row)))


def instead(tree, chance, when, new):
    """Another expression in the place of one that may be there."""
    return changed(tree, expressions(tree, when), chance, lambda old: new(old))


def bad_value(form, at_last=True):
    """A form whose value is to conform to a declared type, which the value that it gets does not."""
    def change(tree, chance):
        paths = places(tree, form, when=lambda row: row.words[1] != "Object")
        if not paths:
            return None
        of_self = [path for path in paths if at_path(tree, path).words[1] == "SELF_TYPE"]
        path = chance.one_of(of_self if of_self and chance.happens(0.4) else paths)
        row = at_path(tree, path)
        new = other_than(row.words[1], chance, tree)
        if row.words[1] == "SELF_TYPE" and chance.happens(0.7):
            new = Tree("new", [tree.parts[path[0]].words[0]])  # the class itself does not conform to its SELF_TYPE
        old = row.parts[-1] if row.parts else None
        return replaced(tree, path, row.having(parts=[*(row.parts[:-1] if at_last else ()), joined(old, new, chance)]))
    return change


def bad_assignment(tree, chance):
    def of(row):
        new = other_than(row.type, chance) if row.type in VALUES else chance.one_of(list(VALUES.values()))
        return new and row.having(parts=[joined(row.parts[0], new, chance)])
    return changed(tree, places(tree, "assign", when=lambda row: row.type != "Object"), chance, of)


def out_of_scope(tree, chance):
    """A name of one scope in another one."""
    bound = [at_path(tree, path).words[0] for path in places(tree, "binding", "branch", "formal")] + [NO_NAME]
    return instead(tree, chance, lambda it: it.type in ("Int", "Object", "Bool"), lambda old: name(chance.one_of(bound)))


def in_own_value(tree, chance):
    """The variable of a let in its own initial value."""
    return changed(tree, places(tree, "binding"), chance, lambda row: row.having(["own_value", row.words[1]], [name("own_value")]))


def calls(tree, *forms, most=0):
    """The places of calls that have more than `most` arguments, or any number where that is 0."""
    return places(tree, *forms, when=lambda it: it.words[0] != "main" and (not most or len(it.parts) - (it.form != "own") > most))


def arguments(change):
    def of(tree, chance):
        def call(row):
            first = 0 if row.form == "own" else 1
            found = change(list(row.parts[first:]), chance)
            return None if found is None else row.having(parts=[*row.parts[:first], *found])
        of_several = calls(tree, "own", "call", "static", most=1) if chance.happens(0.5) else []
        return changed(tree, of_several or calls(tree, "own", "call", "static"), chance, call)
    return of


def another_argument(given, chance):
    return given[:-1] if given and chance.happens(0.5) else [*given, VALUES["Int"]]


def bad_argument(given, chance):
    """The arguments with one that does not conform."""
    if not given:
        return None
    at = len(given) - 1 if chance.happens(0.6) else chance.below(len(given))
    new = other_than(given[at].type, chance) if given[at].type in VALUES else chance.one_of(list(VALUES.values()))
    return [*given[:at], new, *given[at + 1 :]]


def static_at(types):
    return lambda tree, chance: changed(
        tree, places(tree, "call", "static"), chance, lambda it: Tree("static", [it.words[0], chance.one_of(types(tree))], it.parts))


def self_bound(tree, chance):
    return changed(tree, places(tree, "binding", "branch"), chance, lambda row: row.having(["self", row.words[1]]))


def unknown_type(tree, chance):
    def of(row):
        return row.having([UNKNOWN]) if row.form == "new" else row.having([row.words[0], UNKNOWN])
    return changed(tree, places(tree, "binding", "branch", "new", "static"), chance, of)


def branch_again(tree, chance):
    return changed(tree, places(tree, "case"), chance, lambda it: it.having(parts=[*it.parts, chance.one_of(it.parts[1:])]))


def operand(forms, wrong):
    """An operator with an operand of a type that it does not take."""
    def change(tree, chance):
        def of(row):
            at = chance.below(len(row.parts))
            return row.having(parts=[*row.parts[:at], chance.one_of(wrong), *row.parts[at + 1 :]])
        return changed(tree, places(tree, *forms), chance, of)
    return change


def unequal(tree, chance):
    pairs = [("Int", "Bool"), ("Int", "String"), ("String", "Bool"), ("Int", "Object"), ("String", "Object"), ("Bool", "Object")]

    def of(_):
        pair = [VALUES.get(type) or Tree("new", ["Object"]) for type in chance.shuffled(chance.one_of(pairs))]
        return Tree("=", (), pair, "Bool")
    return changed(tree, expressions(tree, lambda it: it.type == "Bool"), chance, of)


NOT_BOOL = (VALUES["Int"], VALUES["String"], Tree("new", ["Object"]))
NOT_INT = (VALUES["Bool"], VALUES["String"], Tree("new", ["Object"]), name("self"))


def bad_test(tree, chance):
    return changed(tree, places(tree, "if", "while"), chance, lambda it: it.having(parts=[chance.one_of(NOT_BOOL), *it.parts[1:]]))


STRANGE = ("!", "#", "$", "%", "&", "'", ">", "?", "[", "]", "\\", "^", "_", "`", "|", "\xc3\xa9", "\x01", "\x00")


def inserted(tokens, chance, token):
    """The tokens with one more, at any place, or often at the end."""
    at = len(tokens) if chance.happens(0.3) else chance.below(len(tokens))
    return [*tokens[:at], token, *tokens[at:]]


def broken_string(change):
    """A string that is none."""
    def of(found, chance):
        at = [place for place, token in enumerate(found) if token.startswith('"')] or [chance.below(len(found))]
        place = chance.one_of(at)
        old = found[place] if found[place].startswith('"') else '"text"'
        return [*found[:place], change(old, chance), *found[place + 1 :]]
    return of


def cut(old, chance):
    return old[:-1] + "\n" if chance.happens(0.5) else old[:1] + "\n" + old[1:]


# What is no expression, though some parser may take it for one.
NO_EXPRESSIONS = [line.split(" ") for line in """1 < 2 < 3
1 = 1 = true
1 <= 2 = true
{ }
{ 1 }
{ 1 ; ; }
{ ; 1 ; }
( )
( 1 ; )
( x ) <- 1
case 1 of esac
case 1 of x : Int => 1 esac
case x : Int => 1 ; of 1 esac
let x : Int <- 1
let in 1
let x in 1
let x : Int , in 1
let x : int in 1
if true then 1 fi
if true then else 1 fi
while true loop pool
self . copy
self . copy ( 1 , )
self . copy ( , 1 )
copy ( 1 2 )
self @ Object
self @ copy ( )
self . Copy ( )
IO . out_int ( 1 )
new x
new
isvoid
~
not
1 -
* 1
- 1
1 + * 1
x <-
a b
1 2
"a" "b"
True
Int
1 == 1
1 <> 2
a := 1
true and false
begin 1 end
return 1
1 ;""".split("\n")]


def no_expression(tree, chance):
    """An expression with what is none in its place: often one of the first, which look most like one."""
    found = NO_EXPRESSIONS[:6] if chance.happens(0.4) else NO_EXPRESSIONS
    return changed(tree, expressions(tree), chance, lambda old: Tree("raw", chance.one_of(found), (), old.type))


def without_sign(found, chance):
    """A sign or keyword taken out: each spelling is as likely as another, however often it stands there."""
    kinds = sorted({token for token in found if not token[0].isalnum() or token.islower() and token in KEYWORDS})
    kind = ";" if chance.happens(0.5) else chance.one_of(kinds)
    at = chance.one_of([place for place, token in enumerate(found) if token == kind])
    if kind == ";" and chance.happens(0.6):
        front = ("class", "") if chance.happens(0.5) else (*found, "")  # often one behind a class
        ends = [place for place, token in enumerate(found) if token == ";" and found[place - 1] == "}" and [*found, ""][place + 1] in front]
        at = chance.one_of(ends or [at])
    return found[:at] + found[at + 1 :]


def comma_too_many(found, chance):
    ends = [place for place, token in enumerate(found) if token == ")" and found[place - 1] != "("]
    of_formals = [place for place in ends if found[place + 1 : place + 2] == [":"]]
    at = chance.one_of((of_formals if chance.happens(0.5) else ends) or ends or [0])
    return [*found[:at], ",", *found[at:]]


def other_tokens(found, chance):
    """One token taken out, doubled, exchanged with the next, or replaced."""
    if chance.happens(0.2):
        return without_sign(found, chance)
    if chance.happens(0.4):
        return comma_too_many(found, chance)
    at, sort = chance.below(len(found) - 1), chance.below(4)
    if sort == 0:
        return found[:at] + found[at + 1 :]
    if sort == 1:
        return found[: at + 1] + found[at:]
    if sort == 2:
        return [*found[:at], found[at + 1], found[at], *found[at + 2 :]]
    return [*found[:at], chance.one_of(found), *found[at + 1 :]]


def case_of(*types):
    return Tree("case", (), [constant("1", "Int"), *(Tree("branch", ["of_" + type.lower(), type], [constant("true", "Bool")]) for type in types)], "Bool")


def or_new(change, *news):
    """A change, or where the program has no place for it one of these expressions in the place of another."""
    return lambda tree, chance: change(tree, chance) or instead(tree, chance, lambda old: True, lambda old: chance.one_of(news))


CHANGES = {
    "C1": lambda tree, chance: added(tree, (), chance.one_of(tree.parts) if chance.happens(0.4) else new_class(chance.one_of(BASIC))),
    "C2": lambda tree, chance: with_parent(tree, chance, ["SELF_TYPE"]) if chance.happens(0.5) else added(tree, (), new_class("SELF_TYPE")),
    "C3": lambda tree, chance: with_parent(tree, chance, [UNKNOWN]),
    "C4": lambda tree, chance: with_parent(tree, chance, list(VALUES)),
    "C5": cycle,
    "C6": lambda tree, chance: renamed_class(tree, "Main", "Start"),
    "F1": feature_again("method"),
    "F2": lambda tree, chance: (attribute_below if chance.happens(0.5) else feature_again("attribute"))(tree, chance),
    "F3": named_self,
    "F4": lambda tree, chance: formals_of(tree, chance, formal_twice),
    "F5": lambda tree, chance: typed(tree, chance, ["formal"], ["SELF_TYPE"]),
    "F6": lambda tree, chance: typed(tree, chance, ["formal", "method", "attribute"], [UNKNOWN]),
    "F7": signature,
    "F8": without_main,
    "E1": lambda tree, chance: chance.one_of((out_of_scope, in_own_value))(tree, chance),
    "E2": lambda tree, chance: changed(tree, expressions(tree), chance, lambda old: Tree("assign", ["self"], [name("self")])),
    "E3": bad_assignment,
    "E4": lambda tree, chance: changed(tree, calls(tree, "own", "call"), chance, lambda it: it.having([NO_NAME])),
    "E5": arguments(another_argument),
    "E6": or_new(arguments(bad_argument), Tree("call", ["out_int"], [Tree("new", ["IO"]), VALUES["String"]])),
    "E7": static_at(lambda tree: ["SELF_TYPE"]),
    "E8": static_at(lambda tree: [*classes(tree), *BASIC]),
    "E9": bad_test,
    "E10": self_bound,
    "E11": unknown_type,
    "E12": or_new(lambda tree, chance: typed(tree, chance, ["branch"], ["SELF_TYPE"]), case_of("Object", "SELF_TYPE")),
    "E13": or_new(branch_again, case_of("Int", "Int")),
    "E14": operand(["+", "-", "*", "/", "<", "<=", "~"], NOT_INT),
    "E15": unequal,
    "E16": or_new(operand(["not"], NOT_BOOL), Tree("not", (), [VALUES["Int"]], "Bool")),
    "E17": lambda tree, chance: bad_value(chance.one_of(("binding", "attribute")), False)(tree, chance),
    "E18": bad_value("method"),
    "S1 by form": no_expression,
}

CHANGES_OF_TOKENS = {
    "L1": lambda found, chance: inserted(found, chance, chance.one_of(STRANGE)),
    "L2": broken_string(cut),
    "L3": broken_string(lambda old, chance: '"' + chance.one_of(("\x00", "\\\x00")) + old[1:]),
    "L5": lambda found, chance: inserted(found, chance, chance.one_of(("(*", "(* (* *)"))),
    "L6": lambda found, chance: inserted(found, chance, chance.one_of(("*)", "(* *) *)"))),
    "S1": other_tokens,
    "S1 by sign": without_sign,
}
