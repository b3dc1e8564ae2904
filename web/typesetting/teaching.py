"""A teacher's explanations of the rules, with a program for each form. `web/rules` puts them beside the rules that it makes from the definitions.

A program is the body of `main` in a class that inherits from IO, or a whole file if it begins with `class`. Its output is beside it. `rules-try` runs each
program."""

# Form: its heading, section of the manual, its types, its evaluation, a program, and the output of the program.
FORMS = {
    "trees.Int": ("Constants", "7.1", "A constant has the type of its kind.", "A constant is its own value, and changes nothing.",
        'out_int(12).out_string(" twelve\\n")', "12 twelve\n"),
    "trees.Id": (
        "Names", "7.2", "A name has the type of its innermost declaration. `self` is always there, and has the type SELF_TYPE.",
        "A name is looked up in two steps: its location, and the value at this location. `self` is the object whose method runs.",
        "let x : Int <- 1 in { out_int(x); let x : Int <- 2 in out_int(x); out_int(x); }", "121",
    ),
    "trees.Assign": (
        "Assignment", "7.3", "The value must conform to the declared type. The assignment has the type of the value, which may be a subclass.",
        "The value is computed, and then stored at the location of the name. It is also the value of the assignment.",
        "let x : Int, y : Int in { x <- y <- 7; out_int(x + y); }", "14",
    ),
    "trees.Dispatch": (
        "Dispatch", "7.4", "The method is looked up in the class of the receiver's type; each argument must conform to its formal. A result SELF_TYPE is the "
        "receiver's own type.",
        "The arguments are computed first, from left to right, then the receiver. The method is that of the object's own class. Its body runs with the "
        "formals at new locations.",
        "class A { f(n : Int) : Int { n + 1 }; };\nclass B inherits A { f(n : Int) : Int { n * 2 }; };\nclass Main inherits IO {\n"
        "  main() : Object { let a : A <- new B in out_int(a.f(20)) };\n};\n", "40",
    ),
    "trees.StaticDispatch": (
        "Static dispatch", "7.4", "The class after `@` must be the receiver's class or an ancestor of it; the method is looked up there.",
        "As a dispatch, but the method is that of the named class, whatever class the object has.",
        "class A { f() : Int { 1 }; };\nclass B inherits A { f() : Int { 2 }; };\nclass Main inherits IO {\n"
        "  main() : Object { let b : B <- new B in out_int(b@A.f()) };\n};\n", "1",
    ),
    "trees.If": (
        "Conditional", "7.5", "The test is a Bool. The type is the least one above both branches.", "The test is computed, and then only one branch.",
        "out_int(if 1 < 2 then 10 else 1 / 0 fi)", "10",
    ),
    "trees.While": (
        "Loop", "7.6", "The test is a Bool; the body may have any type. The loop itself has the type Object.",
            "The body is computed as long as the test is true. The value of the loop is void.",
        "let i : Int <- 0 in { while i < 3 loop { out_int(i); i <- i + 1; } pool; out_int(i); }", "0123",
    ),
    "trees.Block": ("Block", "7.7", "A block has the type of its last expression.",
        "The expressions are computed in order; the value of the last one is that of the block.", "out_int({ 1; 2; 3; })", "3"),
    "trees.Let": (
        "Let", "7.8", "The variable is in scope in the body, but not in its own initial value. The initial value must conform to its type.",
        "The initial value, or the default of the type, is stored at a new location; in the body the name has this location.",
        "let x : Int <- 2, s : String in { out_int(x * 3); out_int(s.length()); }", "60",
    ),
    "trees.Case": (
        "Case", "7.9", "In each branch the variable has the class of the branch. No class occurs twice. The type is the least one above all branches.",
        "The branch with the nearest ancestor of the value's class is taken. Void, and a value without a branch, are errors.",
        'let o : Object <- 5 in case o of s : String => out_string("text"); n : Int => out_int(n + 1); x : Object => out_string("else"); esac', "6",
    ),
    "trees.New": (
        "New", "7.10", "A new object has the named class; SELF_TYPE means the class of self.",
        "All attributes get a location with the default of their type, and then their initial values in order, inherited ones first.",
        "class P { x : Int <- 4; y : Int <- x + 1; y() : Int { y }; };\nclass Main inherits IO {\n  main() : Object { out_int((new P).y()) };\n};\n", "5",
    ),
    "trees.IsVoid": ("Test of void", "7.11", "The expression may have any type; the test is a Bool.", "True for void, and false for each object.",
        'let o : Object in if isvoid o then out_string("void") else abort() fi', "void"),
    "trees.Arith": (
        "Arithmetic", "7.12", "Both operands are Int, and so is the result.",
        "The left operand is computed first. A result beyond 32 bits, and a division by zero, are errors. A quotient is rounded towards zero.",
        "out_int((7 - 2 * 5) / 2)", "-1",
    ),
    "trees.Compare": (
        "Comparison", "7.12", "`<` and `<=` compare Ints. `=` compares an Int, Bool or String only with its own type, and other objects with one another.",
        "Ints, Bools and Strings are equal by value, other objects if they are the same object.",
            'if "a" = "a".concat("") then out_string("equal") else out_string("not") fi', "equal",
    ),
    "trees.Neg": ("Minus", "7.12", "The operand is an Int, and so is the result.",
        "The number with the opposite sign. For the least Int there is none: that is an error.", "out_int(~5 + 2)", "-3"),
    "trees.Not": ("Not", "7.12", "The operand is a Bool, and so is the result.", "True for false, and false for true.",
        'if not 1 < 1 then out_string("no") else out_string("yes") fi', "no"),
}  # fmt: skip
# Forms that are explained together with another one.
WITH = {"trees.Str": "trees.Int", "trees.Bool": "trees.Int"}
# The name of a form in the table of code (docs/editor.md).
TABLE = {
    "trees.Int": "integer string bool", "trees.Id": "name", "trees.Assign": "assign", "trees.Dispatch": "call", "trees.StaticDispatch": "static",
        "trees.If": "if",
    "trees.While": "while", "trees.Block": "block", "trees.Let": "let", "trees.Case": "case", "trees.New": "new", "trees.IsVoid": "isvoid",
    "trees.Arith": "+ - * /", "trees.Compare": "< <= =", "trees.Neg": "~", "trees.Not": "not",
}  # fmt: skip
# Kind of error: the form, the first word of the premise that fails, and the number of such premises before it.
BREAKS = {
    "E1": [("trees.Id", "found", 0), ("trees.Assign", "found", 0)],
    "E2": [("trees.Assign", "IsNotSelf", 0)],
    "E3": [("trees.Assign", "Conforms", 0)],
    "E4": [("trees.Dispatch", "IsImplementation", 0), ("trees.StaticDispatch", "IsImplementation", 0)],
    "E5": [("trees.Dispatch", "AreArguments", 0), ("trees.StaticDispatch", "AreArguments", 0)],
    "E6": [("trees.Dispatch", "AreArguments", 0), ("trees.StaticDispatch", "AreArguments", 0)],
    "E7": [("trees.StaticDispatch", "Denotes", 0)],
    "E8": [("trees.StaticDispatch", "Conforms", 0)],
    "E9": [("trees.If", "bool_type", 0), ("trees.While", "bool_type", 0)],
    "E10": [("trees.Let", "IsNotSelf", 0), ("CaseOf", "IsNotSelf", 0)],
    "E11": [("trees.New", "Denotes", 0), ("trees.Let", "Denotes", 0), ("CaseOf", "Denotes", 0), ("trees.StaticDispatch", "Denotes", 0)],
    "E12": [("CaseOf", "Denotes", 0)],
    "E13": [("trees.Case", "AreDifferent", 0)],
    "E14": [("trees.Arith", "int_type", None), ("trees.Compare", "int_type", None), ("trees.Neg", "int_type", 0)],
    "E15": [("trees.Compare", "same", None), ("trees.Compare", "has_values", None)],
    "E16": [("trees.Not", "bool_type", 0)],
    "E17": [("trees.Let", "Conforms", 0), ("IsTypedFeature", "Conforms", 0)],
    "E18": [("IsTypedFeature", "Conforms", 0)],
}
# The smallest expressions with an error in this form, if the case for the kind of error has it in another form.
BROKEN = {
    ("trees.Assign", "E1"): "zz <- 1", ("trees.StaticDispatch", "E4"): "self@Main.zz()", ("trees.StaticDispatch", "E5"): "self@Main.m()",
    ("trees.StaticDispatch", "E6"): "self@Main.m(true)", ("trees.StaticDispatch", "E11"): "self@B.m(1)", ("trees.While", "E9"): "while 1 loop 2 pool",
    ("trees.Case", "E10"): "case 1 of self : Int => 1; esac", ("trees.Case", "E11"): "case 1 of x : B => 1; esac", ("trees.Let", "E11"): "let x : B in 1",
    ("trees.Compare", "E14"): "1 < true", ("trees.Neg", "E14"): "~true",
}  # fmt: skip
# Methods of the basic classes: their effect, a program and its output.
METHODS = {
    "Abort": ("Ends the program, and writes the class of the object.", "abort()", None),
    "TypeName": ("The name of the object's class, as a String.", "out_string((new Main).type_name())", "Main"),
    "Copy": ("A new object of the same class, whose attributes have the same values. The objects that they refer to are shared.",
        "out_int((new Main).copy().type_name().length())", "4"),
    "OutString": ("Writes the string, and returns the receiver, so that calls may follow one another.", 'out_string("a").out_string("b")', "ab"),
    "OutInt": ("Writes the number in decimal.", "out_int(~12)", "-12"),
    "InString": ("Reads a line of the input, without its newline.", "out_string(in_string())", None),
    "InInt": ("Reads a line of the input, and returns the number at its start; 0 if there is none.", "out_int(in_int())", None),
    "Length": ("The number of bytes of the string.", 'out_int("four".length())', "4"),
    "Concat": ("The string followed by the other one.", 'out_string("ab".concat("cd"))', "abcd"),
    "Substr": ("So many bytes from a position, which counts from 0. A position or length beyond the end is an error.", 'out_string("Cool".substr(1, 2))', "oo"),
}


def broken(text):
    """The program of the cases, with this expression."""
    return "class Main { a : Int; m(x : Int) : SELF_TYPE { self }; main() : Object { %s }; };\n" % text


def program(text):
    if text.startswith("class"):
        return text
    return "class Main inherits IO {\n  main() : Object {\n    %s\n  };\n};\n" % text


# Names of rules that do not follow from their forms and marks.
NAMES = {
    "trees.Let Without": "Let-No-Init", "trees.Let With": "Let-Init", "trees.Dispatch User": "Dispatch", "trees.StaticDispatch User": "StaticDispatch",
        "trees.Int": "Int",
    "trees.Str": "String", "eval_all Last": "Arguments-None", "trees.Compare Less": "Less", "trees.Compare LessEqual": "LessEqual",
    "HaveTypes Last": "Arguments-None",
}  # fmt: skip


def named(form, marks, rule):
    """The name of a rule: its form, and its difference from other rules of the form."""
    whole = " ".join([form, *marks])
    if whole in NAMES:
        return NAMES[whole]
    if form == "trees.Id" and "self" in str(rule.conclusion).replace("('var', 'self')", ""):
        return "Self"
    if form == "trees.Compare" and "Equal" in marks:
        return "Equal" if not any("has_values" in str(it) for it in rule.premises) else "Equal-Objects"
    if form in ("trees.Arith", "trees.Compare") and marks:
        form, *marks = marks
    return "-".join([form.split(".")[-1].replace("_", " "), *marks])
