"use strict";
const COOL_RULES = [
{
"id": "classes",
"number": "3",
"heading": "Classes",
"words": "Classes are refused where one of these rules applies: above the line what is so, below it the fault and its place.",
"entries": [
{
"kind": "fault",
"words": "A definition whose name is that of a basic class or of an earlier definition, and not SELF_TYPE.",
"rules": [
{
"kind": "rule",
"name": "Twice",
"premises": [
{
"pieces": [
[
"",
"class "
],
[
"v",
"d"
],
[
"",
" stands at "
],
[
"v",
"k"
]
]
},
{
"pieces": [
[
"v",
"d"
],
[
"",
" is not named "
],
[
"p",
"SELF_TYPE"
]
]
},
{
"pieces": [
[
"",
"a basic class, or a class before "
],
[
"v",
"k"
],
[
"",
", is named as "
],
[
"v",
"d"
]
]
}
],
"conclusion": [
[
"n",
"C1"
],
[
"",
" at the place of "
],
[
"v",
"d"
]
],
"file": "crates/cool_classes/specs/ClassRows.antt",
"line": 41,
"source": "twice : (k : ℕ) (d : ClassDef) → IsClassAt ds k d → d.name ≢ self_type → IsNamedBefore ds k d.name → IsClassFault ds C1 d.at",
"error": false
}
],
"fault": {
"kind": "C1",
"words": "class defined twice",
"mend": "rename one of the classes; Object, IO, Int, Bool and String are always defined",
"case": "check-C1-smallest",
"files": [
{
"name": "p.cl",
"text": "class A { };\nclass A { };\nclass Main { main() : Object { 0 }; };\n"
}
],
"says": "p.cl:2: C1: class defined twice"
}
},
{
"kind": "fault",
"words": "A class or a parent named SELF_TYPE.",
"rules": [
{
"kind": "rule",
"name": "Named self type",
"premises": [
{
"pieces": [
[
"",
"class "
],
[
"v",
"d"
],
[
"",
" stands at "
],
[
"v",
"k"
]
]
},
{
"pieces": [
[
"v",
"d"
],
[
"",
" is named "
],
[
"p",
"SELF_TYPE"
]
]
}
],
"conclusion": [
[
"n",
"C2"
],
[
"",
" at the place of "
],
[
"v",
"d"
]
],
"file": "crates/cool_classes/specs/ClassRows.antt",
"line": 43,
"source": "named_self_type : (k : ℕ) (d : ClassDef) → IsClassAt ds k d → d.name ≡ self_type → IsClassFault ds C2 d.at",
"error": false
},
{
"kind": "rule",
"name": "Parent self type",
"premises": [
{
"pieces": [
[
"",
"the class at "
],
[
"v",
"k"
],
[
"",
" "
],
[
"p",
"inherits"
],
[
"",
" "
],
[
"v",
"R"
]
]
},
{
"pieces": [
[
"v",
"R"
],
[
"",
" is named "
],
[
"p",
"SELF_TYPE"
]
]
}
],
"conclusion": [
[
"n",
"C2"
],
[
"",
" at the place of "
],
[
"v",
"R"
]
],
"file": "crates/cool_classes/specs/ClassRows.antt",
"line": 44,
"source": "parent_self_type : (k : ℕ) (r : TypeRef) → HasParent ds k r → r.name ≡ self_type → IsClassFault ds C2 r.at",
"error": false
}
],
"fault": {
"kind": "C2",
"words": "SELF_TYPE names no class",
"mend": "write the name of a class",
"case": "check-C2-smallest",
"files": [
{
"name": "p.cl",
"text": "class SELF_TYPE { };\nclass Main { main() : Object { 0 }; };\n"
}
],
"says": "p.cl:1: C2: SELF_TYPE names no class"
}
},
{
"kind": "fault",
"words": "A parent that is no class and not SELF_TYPE.",
"rules": [
{
"kind": "rule",
"name": "No parent",
"premises": [
{
"pieces": [
[
"",
"the class at "
],
[
"v",
"k"
],
[
"",
" "
],
[
"p",
"inherits"
],
[
"",
" "
],
[
"v",
"R"
]
]
},
{
"pieces": [
[
"v",
"R"
],
[
"",
" is not named "
],
[
"p",
"SELF_TYPE"
]
]
},
{
"pieces": [
[
"",
"no class is named as "
],
[
"v",
"R"
]
]
}
],
"conclusion": [
[
"n",
"C3"
],
[
"",
" at the place of "
],
[
"v",
"R"
]
],
"file": "crates/cool_classes/specs/ClassRows.antt",
"line": 46,
"source": "no_parent : (k : ℕ) (r : TypeRef) → HasParent ds k r → r.name ≢ self_type → IsUnnamed ds r.name → IsClassFault ds C3 r.at",
"error": false
}
],
"fault": {
"kind": "C3",
"words": "unknown parent",
"mend": "add its file to the call, or correct the name: upper and lower case differ",
"case": "check-C3-smallest",
"files": [
{
"name": "p.cl",
"text": "class A inherits B { };\nclass Main { main() : Object { 0 }; };\n"
}
],
"says": "p.cl:1: C3: unknown parent"
}
},
{
"kind": "fault",
"words": "The parent Int, Bool or String.",
"rules": [
{
"kind": "rule",
"name": "Barred parent",
"premises": [
{
"pieces": [
[
"",
"the class at "
],
[
"v",
"k"
],
[
"",
" "
],
[
"p",
"inherits"
],
[
"",
" "
],
[
"v",
"R"
]
]
},
{
"pieces": [
[
"",
"the name of "
],
[
"v",
"R"
],
[
"",
" ∈ {"
],
[
"p",
"Int"
],
[
"",
", "
],
[
"p",
"Bool"
],
[
"",
", "
],
[
"p",
"String"
],
[
"",
"}"
]
]
}
],
"conclusion": [
[
"n",
"C4"
],
[
"",
" at the place of "
],
[
"v",
"R"
]
],
"file": "crates/cool_classes/specs/ClassRows.antt",
"line": 48,
"source": "barred_parent : (k : ℕ) (r : TypeRef) → HasParent ds k r → IsBarredName r.name → IsClassFault ds C4 r.at",
"error": false
}
],
"fault": {
"kind": "C4",
"words": "parent cannot be inherited",
"mend": "declare an attribute of that type instead of inheriting from it",
"case": "check-C4-smallest",
"files": [
{
"name": "p.cl",
"text": "class A inherits Int { };\nclass Main { main() : Object { 0 }; };\n"
}
],
"says": "p.cl:1: C4: parent cannot be inherited"
}
},
{
"kind": "fault",
"words": "A definition whose chain of parents comes back to itself.",
"rules": [
{
"kind": "rule",
"name": "Cycle",
"premises": [
{
"pieces": [
[
"",
"class "
],
[
"v",
"d"
],
[
"",
" stands at "
],
[
"v",
"k"
]
]
},
{
"pieces": [
[
"",
"the parents of "
],
[
"v",
"k"
],
[
"",
" come back to it"
]
]
}
],
"conclusion": [
[
"n",
"C5"
],
[
"",
" at the place of "
],
[
"v",
"d"
]
],
"file": "crates/cool_classes/specs/ClassRows.antt",
"line": 50,
"source": "cycle : (k : ℕ) (d : ClassDef) → IsClassAt ds k d → IsOnCycle (parents_meant (names_with_basic ds) ds) k → IsClassFault ds C5 d.at",
"error": false
}
],
"fault": {
"kind": "C5",
"words": "inheritance cycle",
"mend": "let one of the classes inherit from Object",
"case": "check-C5-smallest",
"files": [
{
"name": "p.cl",
"text": "class A inherits A { };\nclass Main { main() : Object { 0 }; };\n"
}
],
"says": "p.cl:1: C5: inheritance cycle"
}
},
{
"kind": "fault",
"words": "No class Main.",
"rules": [
{
"kind": "rule",
"name": "No main",
"premises": [
{
"pieces": [
[
"",
"no class is named "
],
[
"p",
"Main"
]
]
}
],
"conclusion": [
[
"n",
"C6"
],
[
"",
" at line 1 of the first file"
]
],
"file": "crates/cool_classes/specs/ClassRows.antt",
"line": 52,
"source": "no_main : IsUnnamed ds (codes \"Main\") → IsClassFault ds C6 (record { file = 0; line = 1; byte = 0 })",
"error": false
}
],
"fault": {
"kind": "C6",
"words": "no class Main",
"mend": "add the file that defines class Main to the call",
"case": "check-C6-smallest",
"files": [
{
"name": "p.cl",
"text": ""
}
],
"says": "p.cl:1: C6: no class Main"
}
},
{
"kind": "fault",
"words": "The definition past the most.",
"rules": [
{
"kind": "rule",
"name": "Too many",
"premises": [
{
"pieces": [
[
"",
"class "
],
[
"v",
"d"
],
[
"",
" stands at 1,000"
]
]
}
],
"conclusion": [
[
"n",
"C7"
],
[
"",
" at the place of "
],
[
"v",
"d"
]
],
"file": "crates/cool_classes/specs/ClassRows.antt",
"line": 54,
"source": "too_many : (d : ClassDef) → IsClassAt ds MOST_CLASSES d → IsClassFault ds C7 d.at",
"error": false
}
],
"fault": {
"kind": "C7",
"words": "too many classes",
"mend": "split the program into several programs",
"case": "check-C7-smallest",
"files": null,
"says": "p.cl:1001: C7: too many classes"
}
}
]
},
{
"id": "types",
"number": "4",
"heading": "Types",
"words": "Which type may stand where another is due. C is the class in which the expression stands, and SELF_TYPE the type of its object.",
"entries": [
{
"kind": "rule",
"name": "Conforms",
"premises": [],
"conclusion": [
[
"p",
"SELF_TYPE"
],
[
"",
" ≤"
],
[
"s",
"C"
],
[
"",
" "
],
[
"p",
"SELF_TYPE"
]
],
"file": "crates/cool_rules/specs/Conformance.antt",
"line": 27,
"source": "Conforms p c SelfType SelfType = Unit {0}",
"error": false
},
{
"kind": "rule",
"name": "Conforms",
"premises": [
{
"pieces": [
[
"v",
"C"
],
[
"",
" ≤ "
],
[
"v",
"B"
]
]
}
],
"conclusion": [
[
"p",
"SELF_TYPE"
],
[
"",
" ≤"
],
[
"s",
"C"
],
[
"",
" "
],
[
"v",
"B"
]
],
"file": "crates/cool_rules/specs/Conformance.antt",
"line": 28,
"source": "Conforms p c SelfType (IsClass b) = Below p c b",
"error": false
},
{
"kind": "rule",
"name": "Conforms",
"premises": [
{
"pieces": [
[
"v",
"A"
],
[
"",
" ≤ "
],
[
"v",
"B"
]
]
}
],
"conclusion": [
[
"v",
"A"
],
[
"",
" ≤"
],
[
"s",
"C"
],
[
"",
" "
],
[
"v",
"B"
]
],
"file": "crates/cool_rules/specs/Conformance.antt",
"line": 30,
"source": "Conforms p c (IsClass a) (IsClass b) = Below p a b",
"error": false
},
{
"kind": "rule",
"name": "Below",
"premises": [
{
"pieces": [
[
"v",
"d₁, …, dₙ"
],
[
"",
" is the chain of "
],
[
"v",
"A"
]
]
},
{
"pieces": [
[
"v",
"B"
],
[
"",
" ∈ "
],
[
"v",
"d₁, …, dₙ"
]
]
}
],
"conclusion": [
[
"v",
"A"
],
[
"",
" ≤ "
],
[
"v",
"B"
]
],
"file": "crates/cool_classes/specs/Chains.antt",
"line": 40,
"source": "Below p a b = (ds : List ClassId) × IsChain p (Some a) ds × Contains ds b",
"error": false
},
{
"kind": "rule",
"name": "Chain",
"premises": [],
"conclusion": [
[
"",
"nothing is the chain of nothing"
]
],
"file": "crates/cool_classes/specs/Chains.antt",
"line": 33,
"source": "IsChain p None [] = Unit {0}",
"error": false
},
{
"kind": "rule",
"name": "Chain",
"premises": [
{
"pieces": [
[
"v",
"d₁, …, dₙ"
],
[
"",
" is the chain of parent("
],
[
"v",
"C"
],
[
"",
")"
]
]
}
],
"conclusion": [
[
"v",
"C"
],
[
"",
", "
],
[
"v",
"d₁, …, dₙ"
],
[
"",
" is the chain of "
],
[
"v",
"C"
]
],
"file": "crates/cool_classes/specs/Chains.antt",
"line": 36,
"source": "IsChain p (Some c) (d ∷ ds) = (d ≡ c) × IsChain p (parent_of p c) ds",
"error": false
},
{
"kind": "rule",
"name": "Join",
"premises": [
{
"pieces": [
[
"v",
"T₁"
],
[
"",
" ≤"
],
[
"s",
"C"
],
[
"",
" "
],
[
"v",
"T"
]
]
},
{
"pieces": [
[
"v",
"T₂"
],
[
"",
" ≤"
],
[
"s",
"C"
],
[
"",
" "
],
[
"v",
"T"
]
]
},
{
"pieces": [
[
"",
"for each "
],
[
"v",
"other"
],
[
"",
": "
],
[
"v",
"T₁"
],
[
"",
" ≤"
],
[
"s",
"C"
],
[
"",
" "
],
[
"v",
"other"
],
[
"",
" implies "
],
[
"v",
"T₂"
],
[
"",
" ≤"
],
[
"s",
"C"
],
[
"",
" "
],
[
"v",
"other"
],
[
"",
" implies "
],
[
"v",
"T"
],
[
"",
" ≤"
],
[
"s",
"C"
],
[
"",
" "
],
[
"v",
"other"
]
]
}
],
"conclusion": [
[
"v",
"T"
],
[
"",
" = "
],
[
"v",
"T₁"
],
[
"",
" ⊔"
],
[
"s",
"C"
],
[
"",
" "
],
[
"v",
"T₂"
]
],
"file": "crates/cool_rules/specs/Conformance.antt",
"line": 33,
"source": "pub record IsJoinOfTypes (p : List Class) (c : ClassId) (a b join : Ty) : Type 0 where\n  pub left : Conforms p c a join\n  pub right : Conforms p c b join\n  pub least : (other : Ty) → Conforms p c a other → Conforms p c b other → Conforms p c join other",
"error": false
},
{
"kind": "rule",
"name": "Type of a name",
"premises": [
{
"pieces": [
[
"v",
"C"
],
[
"",
" is a class of the program"
]
]
},
{
"pieces": [
[
"",
"name("
],
[
"v",
"C"
],
[
"",
") = "
],
[
"v",
"x"
]
]
}
],
"conclusion": [
[
"",
"type("
],
[
"v",
"x"
],
[
"",
") = "
],
[
"v",
"C"
]
],
"file": "crates/cool_classes/specs/Features.antt",
"line": 168,
"source": "Denotes p name (IsClass c) = (c.0 < length p) × (name_of p c ≡ name)",
"error": false
},
{
"kind": "rule",
"name": "Type of a name",
"premises": [],
"conclusion": [
[
"",
"type("
],
[
"p",
"SELF_TYPE"
],
[
"",
") = "
],
[
"p",
"SELF_TYPE"
]
],
"file": "crates/cool_classes/specs/Features.antt",
"line": 169,
"source": "Denotes p name SelfType = name ≡ self_type",
"error": false
}
]
},
{
"id": "features",
"number": "5, 6",
"heading": "Attributes and methods",
"words": "The expression of a feature fits the type that the feature declares; and features are refused where one of the rules below applies.",
"entries": [
{
"kind": "rule",
"name": "Feature",
"premises": [
{
"pieces": [
[
"v",
"D₁, …, Dₙ"
],
[
"",
" is the chain of "
],
[
"v",
"C"
]
]
},
{
"pieces": [
[
"",
"types of "
],
[
"n",
"formals"
],
[
"",
"("
],
[
"v",
"m"
],
[
"",
") then types of attributes("
],
[
"v",
"D₁, …, Dₙ"
],
[
"",
"), "
],
[
"v",
"M"
],
[
"",
", "
],
[
"v",
"C"
],
[
"",
" ⊢ "
],
[
"n",
"body"
],
[
"",
"("
],
[
"v",
"m"
],
[
"",
") : "
],
[
"v",
"T"
]
]
},
{
"pieces": [
[
"",
"type("
],
[
"n",
"result"
],
[
"",
"("
],
[
"v",
"m"
],
[
"",
")) = "
],
[
"v",
"T₁"
]
]
},
{
"pieces": [
[
"v",
"T"
],
[
"",
" ≤"
],
[
"s",
"C"
],
[
"",
" "
],
[
"v",
"T₁"
]
],
"faults": [
"E18"
]
}
],
"conclusion": [
[
"v",
"M"
],
[
"",
", "
],
[
"v",
"C"
],
[
"",
" ⊢ method "
],
[
"v",
"m"
]
],
"file": "crates/cool_rules/specs/Typing.antt",
"line": 177,
"source": "IsTypedFeature p c (Method m) = FitsDeclared p c (formals_in_scope p m.formals) m.body m.result.name",
"error": false
},
{
"kind": "rule",
"name": "Feature",
"premises": [
{
"pieces": [
[
"",
"there is no "
],
[
"n",
"init"
],
[
"",
"("
],
[
"v",
"a"
],
[
"",
")"
]
]
}
],
"conclusion": [
[
"v",
"M"
],
[
"",
", "
],
[
"v",
"C"
],
[
"",
" ⊢ attribute "
],
[
"v",
"a"
]
],
"file": "crates/cool_rules/specs/Typing.antt",
"line": 178,
"source": "IsTypedFeature p c (Attribute a) = IsTypedInit p c a.declared.name a.init",
"error": false
},
{
"kind": "rule",
"name": "Feature",
"premises": [
{
"pieces": [
[
"n",
"init"
],
[
"",
"("
],
[
"v",
"a"
],
[
"",
") = "
],
[
"v",
"e"
]
]
},
{
"pieces": [
[
"v",
"D₁, …, Dₙ"
],
[
"",
" is the chain of "
],
[
"v",
"C"
]
]
},
{
"pieces": [
[
"",
"types of attributes("
],
[
"v",
"D₁, …, Dₙ"
],
[
"",
"), "
],
[
"v",
"M"
],
[
"",
", "
],
[
"v",
"C"
],
[
"",
" ⊢ "
],
[
"v",
"e"
],
[
"",
" : "
],
[
"v",
"T"
]
]
},
{
"pieces": [
[
"",
"type("
],
[
"n",
"declared"
],
[
"",
"("
],
[
"v",
"a"
],
[
"",
")) = "
],
[
"v",
"T₁"
]
]
},
{
"pieces": [
[
"v",
"T"
],
[
"",
" ≤"
],
[
"s",
"C"
],
[
"",
" "
],
[
"v",
"T₁"
]
],
"faults": [
"E17"
]
}
],
"conclusion": [
[
"v",
"M"
],
[
"",
", "
],
[
"v",
"C"
],
[
"",
" ⊢ attribute "
],
[
"v",
"a"
]
],
"file": "crates/cool_rules/specs/Typing.antt",
"line": 178,
"source": "IsTypedFeature p c (Attribute a) = IsTypedInit p c a.declared.name a.init",
"error": false
},
{
"kind": "fault",
"words": "An earlier method of the class has the name.",
"rules": [
{
"kind": "rule",
"name": "Method twice",
"premises": [
{
"pieces": [
[
"v",
"m"
],
[
"",
" is the method at "
],
[
"v",
"i"
],
[
"",
" of "
],
[
"v",
"C"
]
]
},
{
"pieces": [
[
"v",
"j"
],
[
"",
" < "
],
[
"v",
"i"
]
]
},
{
"pieces": [
[
"v",
"n"
],
[
"",
" is the method at "
],
[
"v",
"j"
],
[
"",
" of "
],
[
"v",
"C"
]
]
},
{
"pieces": [
[
"v",
"n"
],
[
"",
" is named as "
],
[
"v",
"m"
]
]
}
],
"conclusion": [
[
"n",
"F1"
],
[
"",
" at the place of "
],
[
"v",
"m"
]
],
"file": "crates/cool_classes/specs/FeatureRows.antt",
"line": 43,
"source": "method_twice : (i j : ℕ) (m n : MethodDef) → IsMethodAt p c i m → j < i → IsMethodAt p c j n → n.name ≡ m.name → IsFeatureFault p c ds here F1 m.at",
"error": false
}
],
"fault": {
"kind": "F1",
"words": "method defined twice",
"mend": "rename one of the methods: Cool has no overloading",
"case": "check-F1-smallest",
"files": [
{
"name": "p.cl",
"text": "class A { f() : Int { 1 }; f() : Int { 2 }; };\nclass Main { main() : Object { 0 }; };\n"
}
],
"says": "p.cl:1: F1: method defined twice"
}
},
{
"kind": "fault",
"words": "An earlier attribute of the class has the name, or one of the classes above.",
"rules": [
{
"kind": "rule",
"name": "Attribute twice",
"premises": [
{
"pieces": [
[
"v",
"a"
],
[
"",
" is the attribute at "
],
[
"v",
"i"
],
[
"",
" of "
],
[
"v",
"C"
]
]
},
{
"pieces": [
[
"v",
"j"
],
[
"",
" < "
],
[
"v",
"i"
]
]
},
{
"pieces": [
[
"v",
"b"
],
[
"",
" is the attribute at "
],
[
"v",
"j"
],
[
"",
" of "
],
[
"v",
"C"
]
]
},
{
"pieces": [
[
"v",
"b"
],
[
"",
" is named as "
],
[
"v",
"a"
]
]
}
],
"conclusion": [
[
"n",
"F2"
],
[
"",
" at the place of "
],
[
"v",
"a"
]
],
"file": "crates/cool_classes/specs/FeatureRows.antt",
"line": 45,
"source": "attribute_twice : (i j : ℕ) (a b : AttributeDef) → IsAttributeAt p c i a → j < i → IsAttributeAt p c j b → b.name ≡ a.name → IsFeatureFault p c ds here F2 a.at",
"error": false
},
{
"kind": "rule",
"name": "Attribute inherited",
"premises": [
{
"pieces": [
[
"v",
"a"
],
[
"",
" is the attribute at "
],
[
"v",
"i"
],
[
"",
" of "
],
[
"v",
"C"
]
]
},
{
"pieces": [
[
"v",
"D"
],
[
"",
" ∈ the classes above"
]
]
},
{
"pieces": [
[
"v",
"b"
],
[
"",
" is the attribute at "
],
[
"v",
"j"
],
[
"",
" of "
],
[
"v",
"D"
]
]
},
{
"pieces": [
[
"v",
"b"
],
[
"",
" is named as "
],
[
"v",
"a"
]
]
}
],
"conclusion": [
[
"n",
"F2"
],
[
"",
" at the place of "
],
[
"v",
"a"
]
],
"file": "crates/cool_classes/specs/FeatureRows.antt",
"line": 46,
"source": "attribute_inherited : (i j : ℕ) (a b : AttributeDef) (d : ClassId) → IsAttributeAt p c i a → Contains ds d → IsAttributeAt p d j b → b.name ≡ a.name → IsFeatureFault p c ds here F2 a.at",
"error": false
}
],
"fault": {
"kind": "F2",
"words": "attribute defined twice",
"mend": "rename it, or use the inherited attribute",
"case": "check-F2-smallest",
"files": [
{
"name": "p.cl",
"text": "class A { x : Int; x : Int; };\nclass Main { main() : Object { 0 }; };\n"
}
],
"says": "p.cl:1: F2: attribute defined twice"
}
},
{
"kind": "fault",
"words": "An attribute or a formal named self.",
"rules": [
{
"kind": "rule",
"name": "Attribute self",
"premises": [
{
"pieces": [
[
"v",
"a"
],
[
"",
" is the attribute at "
],
[
"v",
"i"
],
[
"",
" of "
],
[
"v",
"C"
]
]
},
{
"pieces": [
[
"v",
"a"
],
[
"",
" is named "
],
[
"p",
"self"
]
]
}
],
"conclusion": [
[
"n",
"F3"
],
[
"",
" at the place of "
],
[
"v",
"a"
]
],
"file": "crates/cool_classes/specs/FeatureRows.antt",
"line": 48,
"source": "attribute_self : (i : ℕ) (a : AttributeDef) → IsAttributeAt p c i a → a.name ≡ codes \"self\" → IsFeatureFault p c ds here F3 a.at",
"error": false
},
{
"kind": "rule",
"name": "Formal self",
"premises": [
{
"pieces": [
[
"v",
"m"
],
[
"",
" is the method at "
],
[
"v",
"i"
],
[
"",
" of "
],
[
"v",
"C"
]
]
},
{
"pieces": [
[
"v",
"f"
],
[
"",
" is the formal at "
],
[
"v",
"j"
],
[
"",
" of "
],
[
"v",
"m"
]
]
},
{
"pieces": [
[
"v",
"f"
],
[
"",
" is named "
],
[
"p",
"self"
]
]
}
],
"conclusion": [
[
"n",
"F3"
],
[
"",
" at the place of "
],
[
"v",
"f"
]
],
"file": "crates/cool_classes/specs/FeatureRows.antt",
"line": 49,
"source": "formal_self : (i j : ℕ) (m : MethodDef) (f : Formal) → IsMethodAt p c i m → IsFormalAt m j f → f.name ≡ codes \"self\" → IsFeatureFault p c ds here F3 f.at",
"error": false
}
],
"fault": {
"kind": "F3",
"words": "self cannot be declared",
"mend": "choose another name: `self` always names the current object",
"case": "check-F3-smallest",
"files": [
{
"name": "p.cl",
"text": "class A { self : Int; };\nclass Main { main() : Object { 0 }; };\n"
}
],
"says": "p.cl:1: F3: self cannot be declared"
}
},
{
"kind": "fault",
"words": "An earlier formal of the method has the name.",
"rules": [
{
"kind": "rule",
"name": "Formal twice",
"premises": [
{
"pieces": [
[
"v",
"m"
],
[
"",
" is the method at "
],
[
"v",
"i"
],
[
"",
" of "
],
[
"v",
"C"
]
]
},
{
"pieces": [
[
"v",
"f"
],
[
"",
" is the formal at "
],
[
"v",
"j"
],
[
"",
" of "
],
[
"v",
"m"
]
]
},
{
"pieces": [
[
"v",
"k"
],
[
"",
" < "
],
[
"v",
"j"
]
]
},
{
"pieces": [
[
"v",
"g"
],
[
"",
" is the formal at "
],
[
"v",
"k"
],
[
"",
" of "
],
[
"v",
"m"
]
]
},
{
"pieces": [
[
"v",
"g"
],
[
"",
" is named as "
],
[
"v",
"f"
]
]
}
],
"conclusion": [
[
"n",
"F4"
],
[
"",
" at the place of "
],
[
"v",
"f"
]
],
"file": "crates/cool_classes/specs/FeatureRows.antt",
"line": 51,
"source": "formal_twice : (i j k : ℕ) (m : MethodDef) (f g : Formal) → IsMethodAt p c i m → IsFormalAt m j f → k < j → IsFormalAt m k g → g.name ≡ f.name → IsFeatureFault p c ds here F4 f.at",
"error": false
}
],
"fault": {
"kind": "F4",
"words": "formal defined twice",
"mend": "rename one of the formals",
"case": "check-F4-smallest",
"files": [
{
"name": "p.cl",
"text": "class A { f(x : Int, x : Int) : Int { 1 }; };\nclass Main { main() : Object { 0 }; };\n"
}
],
"says": "p.cl:1: F4: formal defined twice"
}
},
{
"kind": "fault",
"words": "A formal of type SELF_TYPE.",
"rules": [
{
"kind": "rule",
"name": "Formal self type",
"premises": [
{
"pieces": [
[
"v",
"m"
],
[
"",
" is the method at "
],
[
"v",
"i"
],
[
"",
" of "
],
[
"v",
"C"
]
]
},
{
"pieces": [
[
"v",
"f"
],
[
"",
" is the formal at "
],
[
"v",
"j"
],
[
"",
" of "
],
[
"v",
"m"
]
]
},
{
"pieces": [
[
"",
"the type of "
],
[
"v",
"f"
],
[
"",
" is named "
],
[
"p",
"SELF_TYPE"
]
]
}
],
"conclusion": [
[
"n",
"F5"
],
[
"",
" at the place of the type of "
],
[
"v",
"f"
]
],
"file": "crates/cool_classes/specs/FeatureRows.antt",
"line": 53,
"source": "formal_self_type : (i j : ℕ) (m : MethodDef) (f : Formal) → IsMethodAt p c i m → IsFormalAt m j f → f.declared.name ≡ self_type → IsFeatureFault p c ds here F5 f.declared.at",
"error": false
}
],
"fault": {
"kind": "F5",
"words": "formal of type SELF_TYPE",
"mend": "write the name of a class",
"case": "check-F5-smallest",
"files": [
{
"name": "p.cl",
"text": "class A { f(x : SELF_TYPE) : Int { 1 }; };\nclass Main { main() : Object { 0 }; };\n"
}
],
"says": "p.cl:1: F5: formal of type SELF_TYPE"
}
},
{
"kind": "fault",
"words": "A type of a formal, a result or an attribute that is no class and not SELF_TYPE.",
"rules": [
{
"kind": "rule",
"name": "Formal unknown",
"premises": [
{
"pieces": [
[
"v",
"m"
],
[
"",
" is the method at "
],
[
"v",
"i"
],
[
"",
" of "
],
[
"v",
"C"
]
]
},
{
"pieces": [
[
"v",
"f"
],
[
"",
" is the formal at "
],
[
"v",
"j"
],
[
"",
" of "
],
[
"v",
"m"
]
]
},
{
"pieces": [
[
"",
"no class is named as the type of "
],
[
"v",
"f"
],
[
"",
", nor is that "
],
[
"p",
"SELF_TYPE"
]
]
}
],
"conclusion": [
[
"n",
"F6"
],
[
"",
" at the place of the type of "
],
[
"v",
"f"
]
],
"file": "crates/cool_classes/specs/FeatureRows.antt",
"line": 55,
"source": "formal_unknown : (i j : ℕ) (m : MethodDef) (f : Formal) → IsMethodAt p c i m → IsFormalAt m j f → IsNoType p f.declared.name → IsFeatureFault p c ds here F6 f.declared.at",
"error": false
},
{
"kind": "rule",
"name": "Result unknown",
"premises": [
{
"pieces": [
[
"v",
"m"
],
[
"",
" is the method at "
],
[
"v",
"i"
],
[
"",
" of "
],
[
"v",
"C"
]
]
},
{
"pieces": [
[
"",
"no class is named as the result of "
],
[
"v",
"m"
],
[
"",
", nor is that "
],
[
"p",
"SELF_TYPE"
]
]
}
],
"conclusion": [
[
"n",
"F6"
],
[
"",
" at the place of the result of "
],
[
"v",
"m"
]
],
"file": "crates/cool_classes/specs/FeatureRows.antt",
"line": 56,
"source": "result_unknown : (i : ℕ) (m : MethodDef) → IsMethodAt p c i m → IsNoType p m.result.name → IsFeatureFault p c ds here F6 m.result.at",
"error": false
},
{
"kind": "rule",
"name": "Attribute unknown",
"premises": [
{
"pieces": [
[
"v",
"a"
],
[
"",
" is the attribute at "
],
[
"v",
"i"
],
[
"",
" of "
],
[
"v",
"C"
]
]
},
{
"pieces": [
[
"",
"no class is named as the type of "
],
[
"v",
"a"
],
[
"",
", nor is that "
],
[
"p",
"SELF_TYPE"
]
]
}
],
"conclusion": [
[
"n",
"F6"
],
[
"",
" at the place of the type of "
],
[
"v",
"a"
]
],
"file": "crates/cool_classes/specs/FeatureRows.antt",
"line": 57,
"source": "attribute_unknown : (i : ℕ) (a : AttributeDef) → IsAttributeAt p c i a → IsNoType p a.declared.name → IsFeatureFault p c ds here F6 a.declared.at",
"error": false
}
],
"fault": {
"kind": "F6",
"words": "unknown type",
"mend": "add its file to the call, or correct the name",
"case": "check-F6-smallest",
"files": [
{
"name": "p.cl",
"text": "class A { x : B; };\nclass Main { main() : Object { 0 }; };\n"
}
],
"says": "p.cl:1: F6: unknown type"
}
},
{
"kind": "fault",
"words": "The nearest method of the name on the chain of the parent has another signature.",
"rules": [
{
"kind": "rule",
"name": "Other signature",
"premises": [
{
"pieces": [
[
"v",
"m"
],
[
"",
" is the method at "
],
[
"v",
"i"
],
[
"",
" of "
],
[
"v",
"C"
]
]
},
{
"pieces": [
[
"v",
"M"
],
[
"",
"(the classes above, the name of "
],
[
"v",
"m"
],
[
"",
") = "
],
[
"v",
"q"
]
]
},
{
"pieces": [
[
"v",
"m"
],
[
"",
" has another signature than "
],
[
"v",
"q"
]
]
}
],
"conclusion": [
[
"n",
"F7"
],
[
"",
" at the place of "
],
[
"v",
"m"
]
],
"file": "crates/cool_classes/specs/FeatureRows.antt",
"line": 59,
"source": "other_signature : (i : ℕ) (m : MethodDef) (q : MethodRef) → IsMethodAt p c i m → implementation p ds m.name ≡ Some q → HasOtherSignature p m q → IsFeatureFault p c ds here F7 m.at",
"error": false
}
],
"fault": {
"kind": "F7",
"words": "signature differs",
"mend": "declare the same types of formals and the same result type as the class above",
"case": "check-F7-smallest",
"files": [
{
"name": "p.cl",
"text": "class A { f() : Int { 1 }; };\nclass B inherits A { f() : Bool { true }; };\nclass Main { main() : Object { 0 }; };\n"
}
],
"says": "p.cl:2: F7: signature differs"
}
},
{
"kind": "fault",
"words": "A class Main with no method main of its own, or whose first one has formals.",
"rules": [
{
"kind": "rule",
"name": "No main",
"premises": [
{
"pieces": [
[
"v",
"C"
],
[
"",
" is named "
],
[
"p",
"Main"
]
]
},
{
"pieces": [
[
"",
"for each "
],
[
"v",
"i, m"
],
[
"",
": "
],
[
"v",
"m"
],
[
"",
" is the method at "
],
[
"v",
"i"
],
[
"",
" of "
],
[
"v",
"C"
],
[
"",
" implies "
],
[
"v",
"m"
],
[
"",
" is not named "
],
[
"p",
"main"
]
]
}
],
"conclusion": [
[
"n",
"F8"
],
[
"",
" at the name of C"
]
],
"file": "crates/cool_classes/specs/FeatureRows.antt",
"line": 61,
"source": "no_main : name_of p c ≡ codes \"Main\" → ((i : ℕ) (m : MethodDef) → IsMethodAt p c i m → m.name ≢ codes \"main\") → IsFeatureFault p c ds here F8 here",
"error": false
},
{
"kind": "rule",
"name": "Main formals",
"premises": [
{
"pieces": [
[
"v",
"C"
],
[
"",
" is named "
],
[
"p",
"Main"
]
]
},
{
"pieces": [
[
"v",
"m"
],
[
"",
" is the method at "
],
[
"v",
"i"
],
[
"",
" of "
],
[
"v",
"C"
]
]
},
{
"pieces": [
[
"v",
"m"
],
[
"",
" is named "
],
[
"p",
"main"
]
]
},
{
"pieces": [
[
"",
"for each "
],
[
"v",
"j, n"
],
[
"",
": "
],
[
"v",
"j"
],
[
"",
" < "
],
[
"v",
"i"
],
[
"",
" implies "
],
[
"v",
"n"
],
[
"",
" is the method at "
],
[
"v",
"j"
],
[
"",
" of "
],
[
"v",
"C"
],
[
"",
" implies "
],
[
"v",
"n"
],
[
"",
" is not named "
],
[
"p",
"main"
]
]
},
{
"pieces": [
[
"",
"the formals of "
],
[
"v",
"m"
],
[
"",
" ≠ nothing"
]
]
}
],
"conclusion": [
[
"n",
"F8"
],
[
"",
" at the name of C"
]
],
"file": "crates/cool_classes/specs/FeatureRows.antt",
"line": 62,
"source": "main_formals : (i : ℕ) (m : MethodDef) → name_of p c ≡ codes \"Main\" → IsMethodAt p c i m → m.name ≡ codes \"main\"\n    → ((j : ℕ) (n : MethodDef) → j < i → IsMethodAt p c j n → n.name ≢ codes \"main\") → m.formals ≢ [] → IsFeatureFault p c ds here F8 here",
"error": false
}
],
"fault": {
"kind": "F8",
"words": "no method main",
"mend": "define `main()` without formals in class Main itself",
"case": "check-F8-smallest",
"files": [
{
"name": "p.cl",
"text": "class Main { };\n"
}
],
"says": "p.cl:1: F8: no method main"
}
},
{
"kind": "fault",
"words": "A class with too many attributes or methods.",
"rules": [
{
"kind": "rule",
"name": "Attributes over",
"premises": [
{
"pieces": [
[
"",
"2,000 < number(attributes("
],
[
"v",
"C"
],
[
"",
", the classes above))"
]
]
}
],
"conclusion": [
[
"n",
"F9"
],
[
"",
" at the name of C"
]
],
"file": "crates/cool_classes/specs/FeatureRows.antt",
"line": 65,
"source": "attributes_over : MOST_ATTRIBUTES < length (attributes_of p (c ∷ ds)) → IsFeatureFault p c ds here F9 here",
"error": false
},
{
"kind": "rule",
"name": "Methods over",
"premises": [
{
"pieces": [
[
"",
"2,000 < number(methods("
],
[
"v",
"C"
],
[
"",
", the classes above))"
]
]
}
],
"conclusion": [
[
"n",
"F9"
],
[
"",
" at the name of C"
]
],
"file": "crates/cool_classes/specs/FeatureRows.antt",
"line": 66,
"source": "methods_over : MOST_METHODS < length (methods_of p (c ∷ ds)) → IsFeatureFault p c ds here F9 here",
"error": false
}
],
"fault": {
"kind": "F9",
"words": "too many features",
"mend": "split the class into several classes",
"case": "check-F9-smallest",
"files": null,
"says": "p.cl:1: F9: too many features"
}
}
],
"faults": [
{
"kind": "E17",
"words": "initial value does not conform",
"mend": "give a value of the declared class, or of a class below it",
"case": "check-E17-smallest",
"files": [
{
"name": "p.cl",
"text": "class Main { a : Int; m(x : Int) : SELF_TYPE { self }; main() : Object { let y : Bool <- a in y }; };\n"
}
],
"says": "p.cl:1: E17: initial value does not conform"
},
{
"kind": "E18",
"words": "body does not conform",
"mend": "return a value of the result type; a block has the value of its last item, and a `while` has type Object",
"case": "check-E18-smallest",
"files": [
{
"name": "p.cl",
"text": "class Main { main() : Int { true }; };\n"
}
],
"says": "p.cl:1: E18: body does not conform"
}
]
},
{
"id": "expressions",
"number": "7, 12, 13",
"heading": "Expressions",
"words": "Each form with its type and with what it does. O has the types of names, M the methods of classes, C is the class around; so is self, S the store, E the places of names.",
"entries": [
{
"kind": "form",
"forms": [
"integer",
"string",
"bool"
],
"heading": "Constants",
"section": "7.1",
"types": "A constant has the type of its kind.",
"does": "A constant is its own value, and changes nothing.",
"typing": [
{
"kind": "rule",
"name": "Int",
"premises": [],
"conclusion": [
[
"v",
"O"
],
[
"",
", "
],
[
"v",
"M"
],
[
"",
", "
],
[
"v",
"C"
],
[
"",
" ⊢ "
],
[
"v",
"n"
],
[
"",
" : "
],
[
"p",
"Int"
]
],
"file": "crates/cool_rules/specs/Typing.antt",
"line": 103,
"source": "HasType p c scope (trees.Int at n) type = type ≡ int_type",
"error": false
},
{
"kind": "rule",
"name": "String",
"premises": [],
"conclusion": [
[
"v",
"O"
],
[
"",
", "
],
[
"v",
"M"
],
[
"",
", "
],
[
"v",
"C"
],
[
"",
" ⊢ "
],
[
"v",
"s"
],
[
"",
" : "
],
[
"p",
"String"
]
],
"file": "crates/cool_rules/specs/Typing.antt",
"line": 104,
"source": "HasType p c scope (trees.Str at bytes) type = type ≡ string_type",
"error": false
},
{
"kind": "rule",
"name": "Bool",
"premises": [],
"conclusion": [
[
"v",
"O"
],
[
"",
", "
],
[
"v",
"M"
],
[
"",
", "
],
[
"v",
"C"
],
[
"",
" ⊢ "
],
[
"v",
"b"
],
[
"",
" : "
],
[
"p",
"Bool"
]
],
"file": "crates/cool_rules/specs/Typing.antt",
"line": 105,
"source": "HasType p c scope (trees.Bool at b) type = type ≡ bool_type",
"error": false
}
],
"running": [
{
"kind": "rule",
"name": "Int",
"premises": [],
"conclusion": [
[
"v",
"so"
],
[
"",
", "
],
[
"v",
"S"
],
[
"",
", "
],
[
"v",
"E"
],
[
"",
" ⊢ "
],
[
"v",
"n"
],
[
"",
" : Int(signed("
],
[
"v",
"n"
],
[
"",
")), "
],
[
"v",
"S"
]
],
"file": "crates/cool_meaning/specs/Evaluation.antt",
"line": 176,
"source": "eval p calls self env (trees.Int at n) = rule (give (Int (signed n)))",
"error": false
},
{
"kind": "rule",
"name": "String",
"premises": [],
"conclusion": [
[
"v",
"so"
],
[
"",
", "
],
[
"v",
"S"
],
[
"",
", "
],
[
"v",
"E"
],
[
"",
" ⊢ "
],
[
"v",
"s"
],
[
"",
" : String("
],
[
"v",
"s"
],
[
"",
"), "
],
[
"v",
"S"
]
],
"file": "crates/cool_meaning/specs/Evaluation.antt",
"line": 177,
"source": "eval p calls self env (trees.Str at bytes) = rule (give (Str bytes))",
"error": false
},
{
"kind": "rule",
"name": "Bool",
"premises": [],
"conclusion": [
[
"v",
"so"
],
[
"",
", "
],
[
"v",
"S"
],
[
"",
", "
],
[
"v",
"E"
],
[
"",
" ⊢ "
],
[
"v",
"b"
],
[
"",
" : Bool("
],
[
"v",
"b"
],
[
"",
"), "
],
[
"v",
"S"
]
],
"file": "crates/cool_meaning/specs/Evaluation.antt",
"line": 178,
"source": "eval p calls self env (trees.Bool at b) = rule (give (Bool b))",
"error": false
}
],
"program": "class Main inherits IO {\n  main() : Object {\n    out_int(12).out_string(\" twelve\\n\")\n  };\n};\n",
"prints": "12 twelve\n",
"faults": []
},
{
"kind": "form",
"forms": [
"name"
],
"heading": "Names",
"section": "7.2",
"types": "A name has the type of its innermost declaration. `self` is always there, and has the type SELF_TYPE.",
"does": "A name is looked up in two steps: its location, and the value at this location. `self` is the object whose method runs.",
"typing": [
{
"kind": "rule",
"name": "Self",
"premises": [],
"conclusion": [
[
"v",
"O"
],
[
"",
", "
],
[
"v",
"M"
],
[
"",
", "
],
[
"v",
"C"
],
[
"",
" ⊢ "
],
[
"p",
"self"
],
[
"",
" : "
],
[
"p",
"SELF_TYPE"
]
],
"file": "crates/cool_rules/specs/Typing.antt",
"line": 102,
"source": "HasType p c scope (trees.Id at name) type = type_in_scope scope name ≡ Some type",
"error": false
},
{
"kind": "rule",
"name": "Id",
"premises": [
{
"pieces": [
[
"v",
"x"
],
[
"",
" ≠ "
],
[
"p",
"self"
]
]
},
{
"pieces": [
[
"v",
"O"
],
[
"",
"("
],
[
"v",
"x"
],
[
"",
") = "
],
[
"v",
"T"
]
],
"faults": [
"E1"
]
}
],
"conclusion": [
[
"v",
"O"
],
[
"",
", "
],
[
"v",
"M"
],
[
"",
", "
],
[
"v",
"C"
],
[
"",
" ⊢ "
],
[
"v",
"x"
],
[
"",
" : "
],
[
"v",
"T"
]
],
"file": "crates/cool_rules/specs/Typing.antt",
"line": 102,
"source": "HasType p c scope (trees.Id at name) type = type_in_scope scope name ≡ Some type",
"error": false
}
],
"running": [
{
"kind": "rule",
"name": "Self",
"premises": [],
"conclusion": [
[
"v",
"so"
],
[
"",
", "
],
[
"v",
"S"
],
[
"",
", "
],
[
"v",
"E"
],
[
"",
" ⊢ "
],
[
"p",
"self"
],
[
"",
" : "
],
[
"v",
"so"
],
[
"",
", "
],
[
"v",
"S"
]
],
"file": "crates/cool_meaning/specs/Evaluation.antt",
"line": 175,
"source": "eval p calls self env (trees.Id at name) = rule (value_named self env name)",
"error": false
},
{
"kind": "rule",
"name": "Id",
"premises": [
{
"pieces": [
[
"v",
"x"
],
[
"",
" ≠ "
],
[
"p",
"self"
]
]
},
{
"pieces": [
[
"v",
"E"
],
[
"",
"("
],
[
"v",
"x"
],
[
"",
") = "
],
[
"v",
"l"
]
]
},
{
"pieces": [
[
"v",
"S"
],
[
"",
"("
],
[
"v",
"l"
],
[
"",
") = "
],
[
"v",
"v"
]
]
}
],
"conclusion": [
[
"v",
"so"
],
[
"",
", "
],
[
"v",
"S"
],
[
"",
", "
],
[
"v",
"E"
],
[
"",
" ⊢ "
],
[
"v",
"x"
],
[
"",
" : "
],
[
"v",
"v"
],
[
"",
", "
],
[
"v",
"S"
]
],
"file": "crates/cool_meaning/specs/Evaluation.antt",
"line": 175,
"source": "eval p calls self env (trees.Id at name) = rule (value_named self env name)",
"error": false
}
],
"program": "class Main inherits IO {\n  main() : Object {\n    let x : Int <- 1 in { out_int(x); let x : Int <- 2 in out_int(x); out_int(x); }\n  };\n};\n",
"prints": "121",
"faults": [
{
"kind": "E1",
"words": "unknown name",
"mend": "declare it, or correct its spelling; the initial value of a `let` cannot use the variable of that `let`",
"case": "check-E1-smallest",
"files": [
{
"name": "p.cl",
"text": "class Main { a : Int; m(x : Int) : SELF_TYPE { self }; main() : Object { zz }; };\n"
}
],
"says": "p.cl:1: E1: unknown name"
}
]
},
{
"kind": "form",
"forms": [
"assign"
],
"heading": "Assignment",
"section": "7.3",
"types": "The value must conform to the declared type. The assignment has the type of the value, which may be a subclass.",
"does": "The value is computed, and then stored at the location of the name. It is also the value of the assignment.",
"typing": [
{
"kind": "rule",
"name": "Assign",
"premises": [
{
"pieces": [
[
"v",
"x"
],
[
"",
" ≠ "
],
[
"p",
"self"
]
],
"faults": [
"E2"
]
},
{
"pieces": [
[
"v",
"O"
],
[
"",
", "
],
[
"v",
"M"
],
[
"",
", "
],
[
"v",
"C"
],
[
"",
" ⊢ "
],
[
"v",
"e"
],
[
"",
" : "
],
[
"v",
"T"
]
]
},
{
"pieces": [
[
"v",
"O"
],
[
"",
"("
],
[
"v",
"x"
],
[
"",
") = "
],
[
"v",
"T₁"
]
],
"faults": [
"E1"
]
},
{
"pieces": [
[
"v",
"T"
],
[
"",
" ≤"
],
[
"s",
"C"
],
[
"",
" "
],
[
"v",
"T₁"
]
],
"faults": [
"E3"
]
}
],
"conclusion": [
[
"v",
"O"
],
[
"",
", "
],
[
"v",
"M"
],
[
"",
", "
],
[
"v",
"C"
],
[
"",
" ⊢ "
],
[
"v",
"x"
],
[
"",
" "
],
[
"p",
"<-"
],
[
"",
" "
],
[
"v",
"e"
],
[
"",
" : "
],
[
"v",
"T"
]
],
"file": "crates/cool_rules/specs/Typing.antt",
"line": 106,
"source": "HasType p c scope (trees.Assign at name e) type =\n    (declared : Ty) × IsNotSelf name × HasType p c scope e type × (found scope name ≡ Some declared) × Conforms p c type declared",
"error": false
}
],
"running": [
{
"kind": "rule",
"name": "Assign",
"premises": [
{
"pieces": [
[
"v",
"so"
],
[
"",
", "
],
[
"v",
"S"
],
[
"",
", "
],
[
"v",
"E"
],
[
"",
" ⊢ "
],
[
"v",
"e"
],
[
"",
" : "
],
[
"v",
"v"
],
[
"",
", "
],
[
"v",
"S₁"
]
],
"asks": "one"
},
{
"pieces": [
[
"v",
"E"
],
[
"",
"("
],
[
"v",
"x"
],
[
"",
") = "
],
[
"v",
"l"
]
]
},
{
"pieces": [
[
"v",
"S₂"
],
[
"",
" = "
],
[
"v",
"S₁"
],
[
"",
"["
],
[
"v",
"v"
],
[
"",
"/"
],
[
"v",
"l"
],
[
"",
"]"
]
]
}
],
"conclusion": [
[
"v",
"so"
],
[
"",
", "
],
[
"v",
"S"
],
[
"",
", "
],
[
"v",
"E"
],
[
"",
" ⊢ "
],
[
"v",
"x"
],
[
"",
" "
],
[
"p",
"<-"
],
[
"",
" "
],
[
"v",
"e"
],
[
"",
" : "
],
[
"v",
"v"
],
[
"",
", "
],
[
"v",
"S₂"
]
],
"file": "crates/cool_meaning/specs/Evaluation.antt",
"line": 179,
"source": "eval p calls self env (trees.Assign at name t) = rule (do\n  v ← eval p calls self env t\n  assign env name v)",
"error": false
}
],
"program": "class Main inherits IO {\n  main() : Object {\n    let x : Int, y : Int in { x <- y <- 7; out_int(x + y); }\n  };\n};\n",
"prints": "14",
"faults": [
{
"kind": "E1",
"words": "unknown name",
"mend": "declare it, or correct its spelling; the initial value of a `let` cannot use the variable of that `let`",
"case": null,
"files": [
{
"name": "p.cl",
"text": "class Main { a : Int; m(x : Int) : SELF_TYPE { self }; main() : Object { zz <- 1 }; };\n"
}
],
"says": "p.cl:1: E1: unknown name"
},
{
"kind": "E2",
"words": "self cannot be assigned",
"mend": "assign to a variable: `self` never changes",
"case": "check-E2-smallest",
"files": [
{
"name": "p.cl",
"text": "class Main { a : Int; m(x : Int) : SELF_TYPE { self }; main() : Object { self <- self }; };\n"
}
],
"says": "p.cl:1: E2: self cannot be assigned"
},
{
"kind": "E3",
"words": "assigned value does not conform",
"mend": "assign a value of the variable's class, or of a class below it",
"case": "check-E3-smallest",
"files": [
{
"name": "p.cl",
"text": "class Main { a : Int; m(x : Int) : SELF_TYPE { self }; main() : Object { a <- true }; };\n"
}
],
"says": "p.cl:1: E3: assigned value does not conform"
}
]
},
{
"kind": "form",
"forms": [
"call"
],
"heading": "Dispatch",
"section": "7.4",
"types": "The method is looked up in the class of the receiver's type; each argument must conform to its formal. A result SELF_TYPE is the receiver's own type.",
"does": "The arguments are computed first, from left to right, then the receiver. The method is that of the object's own class. Its body runs with the formals at new locations.",
"typing": [
{
"kind": "rule",
"name": "Dispatch",
"premises": [
{
"pieces": [
[
"v",
"O"
],
[
"",
", "
],
[
"v",
"M"
],
[
"",
", "
],
[
"v",
"C"
],
[
"",
" ⊢ "
],
[
"v",
"e₀"
],
[
"",
" : "
],
[
"v",
"T₀"
]
]
},
{
"pieces": [
[
"v",
"O"
],
[
"",
", "
],
[
"v",
"M"
],
[
"",
", "
],
[
"v",
"C"
],
[
"",
" ⊢ "
],
[
"v",
"e₁, …, eₙ"
],
[
"",
" : "
],
[
"v",
"T₁, …, Tₙ"
]
]
},
{
"pieces": [
[
"v",
"M"
],
[
"",
"(class"
],
[
"s",
"C"
],
[
"",
"("
],
[
"v",
"T₀"
],
[
"",
"), "
],
[
"v",
"f"
],
[
"",
") = "
],
[
"v",
"m"
]
],
"faults": [
"E4"
]
},
{
"pieces": [
[
"v",
"T₁, …, Tₙ"
],
[
"",
" ≤"
],
[
"s",
"C"
],
[
"",
" formals("
],
[
"v",
"m"
],
[
"",
")"
]
],
"faults": [
"E5",
"E6"
]
},
{
"pieces": [
[
"",
"type(result("
],
[
"v",
"m"
],
[
"",
")) = "
],
[
"v",
"T′"
]
]
}
],
"conclusion": [
[
"v",
"O"
],
[
"",
", "
],
[
"v",
"M"
],
[
"",
", "
],
[
"v",
"C"
],
[
"",
" ⊢ "
],
[
"v",
"e₀"
],
[
"p",
"."
],
[
"v",
"f"
],
[
"p",
"("
],
[
"v",
"e₁, …, eₙ"
],
[
"p",
")"
],
[
"",
" : "
],
[
"v",
"T′"
],
[
"",
"["
],
[
"v",
"T₀"
],
[
"",
"/"
],
[
"p",
"SELF_TYPE"
],
[
"",
"]"
]
],
"file": "crates/cool_rules/specs/Typing.antt",
"line": 108,
"source": "HasType p c scope (trees.Dispatch at e name es) type =\n    (receiver : Ty) × (given : List Ty) × HasType p c scope e receiver × HaveTypes p c scope es given × IsCall p c (class_of c receiver) name receiver given type",
"error": false
}
],
"running": [
{
"kind": "rule",
"name": "Dispatch-DispatchVoid",
"premises": [
{
"pieces": [
[
"v",
"so"
],
[
"",
", "
],
[
"v",
"S"
],
[
"",
", "
],
[
"v",
"E"
],
[
"",
" ⊢ "
],
[
"v",
"e₁, …, eₙ"
],
[
"",
" : "
],
[
"v",
"v₁, …, vₙ"
],
[
"",
", "
],
[
"v",
"S₁"
]
],
"asks": "several"
},
{
"pieces": [
[
"v",
"so"
],
[
"",
", "
],
[
"v",
"S₁"
],
[
"",
", "
],
[
"v",
"E"
],
[
"",
" ⊢ "
],
[
"v",
"e₀"
],
[
"",
" : void, "
],
[
"v",
"S₂"
]
],
"asks": "one"
}
],
"conclusion": [
[
"v",
"so"
],
[
"",
", "
],
[
"v",
"S"
],
[
"",
", "
],
[
"v",
"E"
],
[
"",
" ⊢ "
],
[
"v",
"e₀"
],
[
"p",
"."
],
[
"v",
"f"
],
[
"p",
"("
],
[
"v",
"e₁, …, eₙ"
],
[
"p",
")"
],
[
"",
" : error “Dispatch to void”, "
],
[
"v",
"S₂"
]
],
"file": "crates/cool_meaning/specs/Evaluation.antt",
"line": 182,
"source": "eval p calls self env (trees.Dispatch at t name ts) = rule (do\n  vs ← eval_all p calls self env ts\n  holding (length vs) (do\n    v ← eval p calls self env t\n    c ← class_or (DispatchVoid at) v\n    dispatch p calls at c name v vs))",
"error": true
},
{
"kind": "rule",
"name": "Dispatch-Basic",
"premises": [
{
"pieces": [
[
"v",
"so"
],
[
"",
", "
],
[
"v",
"S"
],
[
"",
", "
],
[
"v",
"E"
],
[
"",
" ⊢ "
],
[
"v",
"e₁, …, eₙ"
],
[
"",
" : "
],
[
"v",
"v₁, …, vₙ"
],
[
"",
", "
],
[
"v",
"S₁"
]
],
"asks": "several"
},
{
"pieces": [
[
"v",
"so"
],
[
"",
", "
],
[
"v",
"S₁"
],
[
"",
", "
],
[
"v",
"E"
],
[
"",
" ⊢ "
],
[
"v",
"e₀"
],
[
"",
" : "
],
[
"v",
"v₀"
],
[
"",
", "
],
[
"v",
"S₂"
]
],
"asks": "one"
},
{
"pieces": [
[
"",
"class("
],
[
"v",
"v₀"
],
[
"",
") = "
],
[
"v",
"C"
]
]
},
{
"pieces": [
[
"v",
"M"
],
[
"",
"(chain("
],
[
"v",
"C"
],
[
"",
"), "
],
[
"v",
"f"
],
[
"",
") = basic "
],
[
"v",
"m"
]
]
},
{
"pieces": [
[
"v",
"S₂"
],
[
"",
" ⊢ "
],
[
"v",
"v₀"
],
[
"",
"."
],
[
"v",
"m"
],
[
"",
"("
],
[
"v",
"v₁, …, vₙ"
],
[
"",
") : "
],
[
"v",
"v′"
],
[
"",
", "
],
[
"v",
"S₃"
]
]
}
],
"conclusion": [
[
"v",
"so"
],
[
"",
", "
],
[
"v",
"S"
],
[
"",
", "
],
[
"v",
"E"
],
[
"",
" ⊢ "
],
[
"v",
"e₀"
],
[
"p",
"."
],
[
"v",
"f"
],
[
"p",
"("
],
[
"v",
"e₁, …, eₙ"
],
[
"p",
")"
],
[
"",
" : "
],
[
"v",
"v′"
],
[
"",
", "
],
[
"v",
"S₃"
]
],
"file": "crates/cool_meaning/specs/Evaluation.antt",
"line": 182,
"source": "eval p calls self env (trees.Dispatch at t name ts) = rule (do\n  vs ← eval_all p calls self env ts\n  holding (length vs) (do\n    v ← eval p calls self env t\n    c ← class_or (DispatchVoid at) v\n    dispatch p calls at c name v vs))",
"error": false
},
{
"kind": "rule",
"name": "Dispatch",
"premises": [
{
"pieces": [
[
"v",
"so"
],
[
"",
", "
],
[
"v",
"S"
],
[
"",
", "
],
[
"v",
"E"
],
[
"",
" ⊢ "
],
[
"v",
"e₁, …, eₙ"
],
[
"",
" : "
],
[
"v",
"v₁, …, vₙ"
],
[
"",
", "
],
[
"v",
"S₁"
]
],
"asks": "several"
},
{
"pieces": [
[
"v",
"so"
],
[
"",
", "
],
[
"v",
"S₁"
],
[
"",
", "
],
[
"v",
"E"
],
[
"",
" ⊢ "
],
[
"v",
"e₀"
],
[
"",
" : "
],
[
"v",
"v₀"
],
[
"",
", "
],
[
"v",
"S₂"
]
],
"asks": "one"
},
{
"pieces": [
[
"",
"class("
],
[
"v",
"v₀"
],
[
"",
") = "
],
[
"v",
"C"
]
]
},
{
"pieces": [
[
"v",
"M"
],
[
"",
"(chain("
],
[
"v",
"C"
],
[
"",
"), "
],
[
"v",
"f"
],
[
"",
") = "
],
[
"v",
"A"
],
[
"",
"."
],
[
"v",
"k"
]
]
},
{
"pieces": [
[
"",
"method("
],
[
"v",
"A"
],
[
"",
"."
],
[
"v",
"k"
],
[
"",
") = "
],
[
"v",
"m"
]
]
},
{
"pieces": [
[
"v",
"l₁, …, lₙ"
],
[
"",
" = newloc("
],
[
"v",
"S₂"
],
[
"",
"), "
],
[
"v",
"S₃"
],
[
"",
" = "
],
[
"v",
"S₂"
],
[
"",
"["
],
[
"v",
"v₁, …, vₙ"
],
[
"",
"/"
],
[
"v",
"l₁, …, lₙ"
],
[
"",
"]"
]
]
},
{
"pieces": [
[
"v",
"v₀"
],
[
"",
", "
],
[
"v",
"S₃"
],
[
"",
", attributes("
],
[
"v",
"v₀"
],
[
"",
")["
],
[
"v",
"l₁, …, lₙ"
],
[
"",
"/names("
],
[
"n",
"formals"
],
[
"",
"("
],
[
"v",
"m"
],
[
"",
"))] ⊢ "
],
[
"n",
"body"
],
[
"",
"("
],
[
"v",
"m"
],
[
"",
") : "
],
[
"v",
"v′"
],
[
"",
", "
],
[
"v",
"S₄"
]
]
}
],
"conclusion": [
[
"v",
"so"
],
[
"",
", "
],
[
"v",
"S"
],
[
"",
", "
],
[
"v",
"E"
],
[
"",
" ⊢ "
],
[
"v",
"e₀"
],
[
"p",
"."
],
[
"v",
"f"
],
[
"p",
"("
],
[
"v",
"e₁, …, eₙ"
],
[
"p",
")"
],
[
"",
" : "
],
[
"v",
"v′"
],
[
"",
", "
],
[
"v",
"S₄"
]
],
"file": "crates/cool_meaning/specs/Evaluation.antt",
"line": 182,
"source": "eval p calls self env (trees.Dispatch at t name ts) = rule (do\n  vs ← eval_all p calls self env ts\n  holding (length vs) (do\n    v ← eval p calls self env t\n    c ← class_or (DispatchVoid at) v\n    dispatch p calls at c name v vs))",
"error": false
}
],
"program": "class A { f(n : Int) : Int { n + 1 }; };\nclass B inherits A { f(n : Int) : Int { n * 2 }; };\nclass Main inherits IO {\n  main() : Object { let a : A <- new B in out_int(a.f(20)) };\n};\n",
"prints": "40",
"faults": [
{
"kind": "E4",
"words": "unknown method",
"mend": "call a method of the class that the receiver is declared with; for `out_string`, write `inherits IO`",
"case": "check-E4-smallest",
"files": [
{
"name": "p.cl",
"text": "class Main { a : Int; m(x : Int) : SELF_TYPE { self }; main() : Object { q() }; };\n"
}
],
"says": "p.cl:1: E4: unknown method"
},
{
"kind": "E5",
"words": "wrong number of arguments",
"mend": "pass one argument for each formal",
"case": "check-E5-smallest",
"files": [
{
"name": "p.cl",
"text": "class Main { a : Int; m(x : Int) : SELF_TYPE { self }; main() : Object { m() }; };\n"
}
],
"says": "p.cl:1: E5: wrong number of arguments"
},
{
"kind": "E6",
"words": "argument does not conform",
"mend": "pass a value of the formal's class, or of a class below it",
"case": "check-E6-smallest",
"files": [
{
"name": "p.cl",
"text": "class Main { a : Int; m(x : Int) : SELF_TYPE { self }; main() : Object { m(true) }; };\n"
}
],
"says": "p.cl:1: E6: argument does not conform"
}
]
},
{
"kind": "form",
"forms": [
"static"
],
"heading": "Static dispatch",
"section": "7.4",
"types": "The class after `@` must be the receiver's class or an ancestor of it; the method is looked up there.",
"does": "As a dispatch, but the method is that of the named class, whatever class the object has.",
"typing": [
{
"kind": "rule",
"name": "StaticDispatch",
"premises": [
{
"pieces": [
[
"v",
"O"
],
[
"",
", "
],
[
"v",
"M"
],
[
"",
", "
],
[
"v",
"C"
],
[
"",
" ⊢ "
],
[
"v",
"e₀"
],
[
"",
" : "
],
[
"v",
"T₀"
]
]
},
{
"pieces": [
[
"v",
"O"
],
[
"",
", "
],
[
"v",
"M"
],
[
"",
", "
],
[
"v",
"C"
],
[
"",
" ⊢ "
],
[
"v",
"e₁, …, eₙ"
],
[
"",
" : "
],
[
"v",
"T₁, …, Tₙ"
]
]
},
{
"pieces": [
[
"",
"type("
],
[
"v",
"D"
],
[
"",
") = "
],
[
"v",
"K"
]
],
"faults": [
"E7",
"E11"
]
},
{
"pieces": [
[
"v",
"T₀"
],
[
"",
" ≤"
],
[
"s",
"C"
],
[
"",
" "
],
[
"v",
"K"
]
],
"faults": [
"E8"
]
},
{
"pieces": [
[
"v",
"M"
],
[
"",
"("
],
[
"v",
"K"
],
[
"",
", "
],
[
"v",
"f"
],
[
"",
") = "
],
[
"v",
"m"
]
],
"faults": [
"E4"
]
},
{
"pieces": [
[
"v",
"T₁, …, Tₙ"
],
[
"",
" ≤"
],
[
"s",
"C"
],
[
"",
" formals("
],
[
"v",
"m"
],
[
"",
")"
]
],
"faults": [
"E5",
"E6"
]
},
{
"pieces": [
[
"",
"type(result("
],
[
"v",
"m"
],
[
"",
")) = "
],
[
"v",
"T′"
]
]
}
],
"conclusion": [
[
"v",
"O"
],
[
"",
", "
],
[
"v",
"M"
],
[
"",
", "
],
[
"v",
"C"
],
[
"",
" ⊢ "
],
[
"v",
"e₀"
],
[
"p",
"@"
],
[
"v",
"D"
],
[
"p",
"."
],
[
"v",
"f"
],
[
"p",
"("
],
[
"v",
"e₁, …, eₙ"
],
[
"p",
")"
],
[
"",
" : "
],
[
"v",
"T′"
],
[
"",
"["
],
[
"v",
"T₀"
],
[
"",
"/"
],
[
"p",
"SELF_TYPE"
],
[
"",
"]"
]
],
"file": "crates/cool_rules/specs/Typing.antt",
"line": 110,
"source": "HasType p c scope (trees.StaticDispatch at e class name es) type =\n    (receiver : Ty) × (given : List Ty) × (k : ClassId) × HasType p c scope e receiver × HaveTypes p c scope es given × Denotes p class.name (IsClass k)\n    × Conforms p c receiver (IsClass k) × IsCall p c k name receiver given type",
"error": false
}
],
"running": [
{
"kind": "rule",
"name": "StaticDispatch-DispatchVoid",
"premises": [
{
"pieces": [
[
"v",
"so"
],
[
"",
", "
],
[
"v",
"S"
],
[
"",
", "
],
[
"v",
"E"
],
[
"",
" ⊢ "
],
[
"v",
"e₁, …, eₙ"
],
[
"",
" : "
],
[
"v",
"v₁, …, vₙ"
],
[
"",
", "
],
[
"v",
"S₁"
]
],
"asks": "several"
},
{
"pieces": [
[
"v",
"so"
],
[
"",
", "
],
[
"v",
"S₁"
],
[
"",
", "
],
[
"v",
"E"
],
[
"",
" ⊢ "
],
[
"v",
"e₀"
],
[
"",
" : void, "
],
[
"v",
"S₂"
]
],
"asks": "one"
}
],
"conclusion": [
[
"v",
"so"
],
[
"",
", "
],
[
"v",
"S"
],
[
"",
", "
],
[
"v",
"E"
],
[
"",
" ⊢ "
],
[
"v",
"e₀"
],
[
"p",
"@"
],
[
"v",
"D"
],
[
"p",
"."
],
[
"v",
"f"
],
[
"p",
"("
],
[
"v",
"e₁, …, eₙ"
],
[
"p",
")"
],
[
"",
" : error “Dispatch to void”, "
],
[
"v",
"S₂"
]
],
"file": "crates/cool_meaning/specs/Evaluation.antt",
"line": 188,
"source": "eval p calls self env (trees.StaticDispatch at t class name ts) = rule (do\n  vs ← eval_all p calls self env ts\n  holding (length vs) (do\n    v ← eval p calls self env t\n    d ← class_or (DispatchVoid at) v\n    c ← given (class_named p class.name)\n    dispatch p calls at c name v vs))",
"error": true
},
{
"kind": "rule",
"name": "StaticDispatch-Basic",
"premises": [
{
"pieces": [
[
"v",
"so"
],
[
"",
", "
],
[
"v",
"S"
],
[
"",
", "
],
[
"v",
"E"
],
[
"",
" ⊢ "
],
[
"v",
"e₁, …, eₙ"
],
[
"",
" : "
],
[
"v",
"v₁, …, vₙ"
],
[
"",
", "
],
[
"v",
"S₁"
]
],
"asks": "several"
},
{
"pieces": [
[
"v",
"so"
],
[
"",
", "
],
[
"v",
"S₁"
],
[
"",
", "
],
[
"v",
"E"
],
[
"",
" ⊢ "
],
[
"v",
"e₀"
],
[
"",
" : "
],
[
"v",
"v₀"
],
[
"",
", "
],
[
"v",
"S₂"
]
],
"asks": "one"
},
{
"pieces": [
[
"",
"class("
],
[
"v",
"v₀"
],
[
"",
") = "
],
[
"v",
"D"
]
]
},
{
"pieces": [
[
"",
"class("
],
[
"v",
"D′"
],
[
"",
") = "
],
[
"v",
"c"
]
]
},
{
"pieces": [
[
"v",
"M"
],
[
"",
"(chain("
],
[
"v",
"c"
],
[
"",
"), "
],
[
"v",
"f"
],
[
"",
") = basic "
],
[
"v",
"m"
]
]
},
{
"pieces": [
[
"v",
"S₂"
],
[
"",
" ⊢ "
],
[
"v",
"v₀"
],
[
"",
"."
],
[
"v",
"m"
],
[
"",
"("
],
[
"v",
"v₁, …, vₙ"
],
[
"",
") : "
],
[
"v",
"v′"
],
[
"",
", "
],
[
"v",
"S₃"
]
]
}
],
"conclusion": [
[
"v",
"so"
],
[
"",
", "
],
[
"v",
"S"
],
[
"",
", "
],
[
"v",
"E"
],
[
"",
" ⊢ "
],
[
"v",
"e₀"
],
[
"p",
"@"
],
[
"v",
"D′"
],
[
"p",
"."
],
[
"v",
"f"
],
[
"p",
"("
],
[
"v",
"e₁, …, eₙ"
],
[
"p",
")"
],
[
"",
" : "
],
[
"v",
"v′"
],
[
"",
", "
],
[
"v",
"S₃"
]
],
"file": "crates/cool_meaning/specs/Evaluation.antt",
"line": 188,
"source": "eval p calls self env (trees.StaticDispatch at t class name ts) = rule (do\n  vs ← eval_all p calls self env ts\n  holding (length vs) (do\n    v ← eval p calls self env t\n    d ← class_or (DispatchVoid at) v\n    c ← given (class_named p class.name)\n    dispatch p calls at c name v vs))",
"error": false
},
{
"kind": "rule",
"name": "StaticDispatch",
"premises": [
{
"pieces": [
[
"v",
"so"
],
[
"",
", "
],
[
"v",
"S"
],
[
"",
", "
],
[
"v",
"E"
],
[
"",
" ⊢ "
],
[
"v",
"e₁, …, eₙ"
],
[
"",
" : "
],
[
"v",
"v₁, …, vₙ"
],
[
"",
", "
],
[
"v",
"S₁"
]
],
"asks": "several"
},
{
"pieces": [
[
"v",
"so"
],
[
"",
", "
],
[
"v",
"S₁"
],
[
"",
", "
],
[
"v",
"E"
],
[
"",
" ⊢ "
],
[
"v",
"e₀"
],
[
"",
" : "
],
[
"v",
"v₀"
],
[
"",
", "
],
[
"v",
"S₂"
]
],
"asks": "one"
},
{
"pieces": [
[
"",
"class("
],
[
"v",
"v₀"
],
[
"",
") = "
],
[
"v",
"D"
]
]
},
{
"pieces": [
[
"",
"class("
],
[
"v",
"D′"
],
[
"",
") = "
],
[
"v",
"c"
]
]
},
{
"pieces": [
[
"v",
"M"
],
[
"",
"(chain("
],
[
"v",
"c"
],
[
"",
"), "
],
[
"v",
"f"
],
[
"",
") = "
],
[
"v",
"A"
],
[
"",
"."
],
[
"v",
"k"
]
]
},
{
"pieces": [
[
"",
"method("
],
[
"v",
"A"
],
[
"",
"."
],
[
"v",
"k"
],
[
"",
") = "
],
[
"v",
"m"
]
]
},
{
"pieces": [
[
"v",
"l₁, …, lₙ"
],
[
"",
" = newloc("
],
[
"v",
"S₂"
],
[
"",
"), "
],
[
"v",
"S₃"
],
[
"",
" = "
],
[
"v",
"S₂"
],
[
"",
"["
],
[
"v",
"v₁, …, vₙ"
],
[
"",
"/"
],
[
"v",
"l₁, …, lₙ"
],
[
"",
"]"
]
]
},
{
"pieces": [
[
"v",
"v₀"
],
[
"",
", "
],
[
"v",
"S₃"
],
[
"",
", attributes("
],
[
"v",
"v₀"
],
[
"",
")["
],
[
"v",
"l₁, …, lₙ"
],
[
"",
"/names("
],
[
"n",
"formals"
],
[
"",
"("
],
[
"v",
"m"
],
[
"",
"))] ⊢ "
],
[
"n",
"body"
],
[
"",
"("
],
[
"v",
"m"
],
[
"",
") : "
],
[
"v",
"v′"
],
[
"",
", "
],
[
"v",
"S₄"
]
]
}
],
"conclusion": [
[
"v",
"so"
],
[
"",
", "
],
[
"v",
"S"
],
[
"",
", "
],
[
"v",
"E"
],
[
"",
" ⊢ "
],
[
"v",
"e₀"
],
[
"p",
"@"
],
[
"v",
"D′"
],
[
"p",
"."
],
[
"v",
"f"
],
[
"p",
"("
],
[
"v",
"e₁, …, eₙ"
],
[
"p",
")"
],
[
"",
" : "
],
[
"v",
"v′"
],
[
"",
", "
],
[
"v",
"S₄"
]
],
"file": "crates/cool_meaning/specs/Evaluation.antt",
"line": 188,
"source": "eval p calls self env (trees.StaticDispatch at t class name ts) = rule (do\n  vs ← eval_all p calls self env ts\n  holding (length vs) (do\n    v ← eval p calls self env t\n    d ← class_or (DispatchVoid at) v\n    c ← given (class_named p class.name)\n    dispatch p calls at c name v vs))",
"error": false
}
],
"program": "class A { f() : Int { 1 }; };\nclass B inherits A { f() : Int { 2 }; };\nclass Main inherits IO {\n  main() : Object { let b : B <- new B in out_int(b@A.f()) };\n};\n",
"prints": "1",
"faults": [
{
"kind": "E4",
"words": "unknown method",
"mend": "call a method of the class that the receiver is declared with; for `out_string`, write `inherits IO`",
"case": null,
"files": [
{
"name": "p.cl",
"text": "class Main { a : Int; m(x : Int) : SELF_TYPE { self }; main() : Object { self@Main.zz() }; };\n"
}
],
"says": "p.cl:1: E4: unknown method"
},
{
"kind": "E5",
"words": "wrong number of arguments",
"mend": "pass one argument for each formal",
"case": null,
"files": [
{
"name": "p.cl",
"text": "class Main { a : Int; m(x : Int) : SELF_TYPE { self }; main() : Object { self@Main.m() }; };\n"
}
],
"says": "p.cl:1: E5: wrong number of arguments"
},
{
"kind": "E6",
"words": "argument does not conform",
"mend": "pass a value of the formal's class, or of a class below it",
"case": null,
"files": [
{
"name": "p.cl",
"text": "class Main { a : Int; m(x : Int) : SELF_TYPE { self }; main() : Object { self@Main.m(true) }; };\n"
}
],
"says": "p.cl:1: E6: argument does not conform"
},
{
"kind": "E7",
"words": "SELF_TYPE after @",
"mend": "write the name of a class after `@`",
"case": "check-E7-smallest",
"files": [
{
"name": "p.cl",
"text": "class Main { a : Int; m(x : Int) : SELF_TYPE { self }; main() : Object { self@SELF_TYPE.m(1) }; };\n"
}
],
"says": "p.cl:1: E7: SELF_TYPE after @"
},
{
"kind": "E8",
"words": "receiver does not conform",
"mend": "write the receiver's class, or a class above it, after `@`",
"case": "check-E8-smallest",
"files": [
{
"name": "p.cl",
"text": "class Main { a : Int; m(x : Int) : SELF_TYPE { self }; main() : Object { self@IO.m(1) }; };\n"
}
],
"says": "p.cl:1: E8: receiver does not conform"
},
{
"kind": "E11",
"words": "unknown type",
"mend": "add its file to the call, or correct the name",
"case": null,
"files": [
{
"name": "p.cl",
"text": "class Main { a : Int; m(x : Int) : SELF_TYPE { self }; main() : Object { self@B.m(1) }; };\n"
}
],
"says": "p.cl:1: E11: unknown type"
}
]
},
{
"kind": "form",
"forms": [
"if"
],
"heading": "Conditional",
"section": "7.5",
"types": "The test is a Bool. The type is the least one above both branches.",
"does": "The test is computed, and then only one branch.",
"typing": [
{
"kind": "rule",
"name": "If",
"premises": [
{
"pieces": [
[
"v",
"O"
],
[
"",
", "
],
[
"v",
"M"
],
[
"",
", "
],
[
"v",
"C"
],
[
"",
" ⊢ "
],
[
"v",
"e₁"
],
[
"",
" : "
],
[
"p",
"Bool"
]
],
"faults": [
"E9"
]
},
{
"pieces": [
[
"v",
"O"
],
[
"",
", "
],
[
"v",
"M"
],
[
"",
", "
],
[
"v",
"C"
],
[
"",
" ⊢ "
],
[
"v",
"e₂"
],
[
"",
" : "
],
[
"v",
"T₁"
]
]
},
{
"pieces": [
[
"v",
"O"
],
[
"",
", "
],
[
"v",
"M"
],
[
"",
", "
],
[
"v",
"C"
],
[
"",
" ⊢ "
],
[
"v",
"e₃"
],
[
"",
" : "
],
[
"v",
"T₂"
]
]
},
{
"pieces": [
[
"v",
"T"
],
[
"",
" = "
],
[
"v",
"T₁"
],
[
"",
" ⊔"
],
[
"s",
"C"
],
[
"",
" "
],
[
"v",
"T₂"
]
]
}
],
"conclusion": [
[
"v",
"O"
],
[
"",
", "
],
[
"v",
"M"
],
[
"",
", "
],
[
"v",
"C"
],
[
"",
" ⊢ "
],
[
"p",
"if"
],
[
"",
" "
],
[
"v",
"e₁"
],
[
"",
" "
],
[
"p",
"then"
],
[
"",
" "
],
[
"v",
"e₂"
],
[
"",
" "
],
[
"p",
"else"
],
[
"",
" "
],
[
"v",
"e₃"
],
[
"",
" "
],
[
"p",
"fi"
],
[
"",
" : "
],
[
"v",
"T"
]
],
"file": "crates/cool_rules/specs/Typing.antt",
"line": 113,
"source": "HasType p c scope (trees.If at test first second) type =\n    (t : Ty) × (u : Ty) × HasType p c scope test bool_type × HasType p c scope first t × HasType p c scope second u × IsJoinOfTypes p c t u type",
"error": false
}
],
"running": [
{
"kind": "rule",
"name": "If-True",
"premises": [
{
"pieces": [
[
"v",
"so"
],
[
"",
", "
],
[
"v",
"S"
],
[
"",
", "
],
[
"v",
"E"
],
[
"",
" ⊢ "
],
[
"v",
"e₁"
],
[
"",
" : Bool("
],
[
"n",
"true"
],
[
"",
"), "
],
[
"v",
"S₁"
]
],
"asks": "one"
},
{
"pieces": [
[
"v",
"so"
],
[
"",
", "
],
[
"v",
"S₁"
],
[
"",
", "
],
[
"v",
"E"
],
[
"",
" ⊢ "
],
[
"v",
"e₂"
],
[
"",
" : "
],
[
"v",
"v"
],
[
"",
", "
],
[
"v",
"S₂"
]
],
"asks": "one"
}
],
"conclusion": [
[
"v",
"so"
],
[
"",
", "
],
[
"v",
"S"
],
[
"",
", "
],
[
"v",
"E"
],
[
"",
" ⊢ "
],
[
"p",
"if"
],
[
"",
" "
],
[
"v",
"e₁"
],
[
"",
" "
],
[
"p",
"then"
],
[
"",
" "
],
[
"v",
"e₂"
],
[
"",
" "
],
[
"p",
"else"
],
[
"",
" "
],
[
"v",
"e₃"
],
[
"",
" "
],
[
"p",
"fi"
],
[
"",
" : "
],
[
"v",
"v"
],
[
"",
", "
],
[
"v",
"S₂"
]
],
"file": "crates/cool_meaning/specs/Evaluation.antt",
"line": 195,
"source": "eval p calls self env (trees.If at test first second) = rule (do\n  v ← eval p calls self env test\n  b ← as_truth v\n  if b then eval p calls self env first else eval p calls self env second)",
"error": false
},
{
"kind": "rule",
"name": "If-False",
"premises": [
{
"pieces": [
[
"v",
"so"
],
[
"",
", "
],
[
"v",
"S"
],
[
"",
", "
],
[
"v",
"E"
],
[
"",
" ⊢ "
],
[
"v",
"e₁"
],
[
"",
" : Bool("
],
[
"n",
"false"
],
[
"",
"), "
],
[
"v",
"S₁"
]
],
"asks": "one"
},
{
"pieces": [
[
"v",
"so"
],
[
"",
", "
],
[
"v",
"S₁"
],
[
"",
", "
],
[
"v",
"E"
],
[
"",
" ⊢ "
],
[
"v",
"e₃"
],
[
"",
" : "
],
[
"v",
"v"
],
[
"",
", "
],
[
"v",
"S₂"
]
],
"asks": "one"
}
],
"conclusion": [
[
"v",
"so"
],
[
"",
", "
],
[
"v",
"S"
],
[
"",
", "
],
[
"v",
"E"
],
[
"",
" ⊢ "
],
[
"p",
"if"
],
[
"",
" "
],
[
"v",
"e₁"
],
[
"",
" "
],
[
"p",
"then"
],
[
"",
" "
],
[
"v",
"e₂"
],
[
"",
" "
],
[
"p",
"else"
],
[
"",
" "
],
[
"v",
"e₃"
],
[
"",
" "
],
[
"p",
"fi"
],
[
"",
" : "
],
[
"v",
"v"
],
[
"",
", "
],
[
"v",
"S₂"
]
],
"file": "crates/cool_meaning/specs/Evaluation.antt",
"line": 195,
"source": "eval p calls self env (trees.If at test first second) = rule (do\n  v ← eval p calls self env test\n  b ← as_truth v\n  if b then eval p calls self env first else eval p calls self env second)",
"error": false
}
],
"program": "class Main inherits IO {\n  main() : Object {\n    out_int(if 1 < 2 then 10 else 1 / 0 fi)\n  };\n};\n",
"prints": "10",
"faults": [
{
"kind": "E9",
"words": "predicate is not Bool",
"mend": "write a condition of type Bool, for example `not x = 0`",
"case": "check-E9-smallest",
"files": [
{
"name": "p.cl",
"text": "class Main { a : Int; m(x : Int) : SELF_TYPE { self }; main() : Object { if 1 then 2 else 3 fi }; };\n"
}
],
"says": "p.cl:1: E9: predicate is not Bool"
}
]
},
{
"kind": "form",
"forms": [
"while"
],
"heading": "Loop",
"section": "7.6",
"types": "The test is a Bool; the body may have any type. The loop itself has the type Object.",
"does": "The body is computed as long as the test is true. The value of the loop is void.",
"typing": [
{
"kind": "rule",
"name": "While",
"premises": [
{
"pieces": [
[
"v",
"O"
],
[
"",
", "
],
[
"v",
"M"
],
[
"",
", "
],
[
"v",
"C"
],
[
"",
" ⊢ "
],
[
"v",
"e₁"
],
[
"",
" : "
],
[
"p",
"Bool"
]
],
"faults": [
"E9"
]
},
{
"pieces": [
[
"v",
"O"
],
[
"",
", "
],
[
"v",
"M"
],
[
"",
", "
],
[
"v",
"C"
],
[
"",
" ⊢ "
],
[
"v",
"e₂"
],
[
"",
" : "
],
[
"v",
"T"
]
]
}
],
"conclusion": [
[
"v",
"O"
],
[
"",
", "
],
[
"v",
"M"
],
[
"",
", "
],
[
"v",
"C"
],
[
"",
" ⊢ "
],
[
"p",
"while"
],
[
"",
" "
],
[
"v",
"e₁"
],
[
"",
" "
],
[
"p",
"loop"
],
[
"",
" "
],
[
"v",
"e₂"
],
[
"",
" "
],
[
"p",
"pool"
],
[
"",
" : "
],
[
"p",
"Object"
]
],
"file": "crates/cool_rules/specs/Typing.antt",
"line": 115,
"source": "HasType p c scope (trees.While at test body) type = (t : Ty) × HasType p c scope test bool_type × HasType p c scope body t × (type ≡ object_type)",
"error": false
}
],
"running": [
{
"kind": "rule",
"name": "While-True",
"premises": [
{
"pieces": [
[
"v",
"so"
],
[
"",
", "
],
[
"v",
"S"
],
[
"",
", "
],
[
"v",
"E"
],
[
"",
" ⊢ "
],
[
"v",
"e₁"
],
[
"",
" : Bool("
],
[
"n",
"true"
],
[
"",
"), "
],
[
"v",
"S₁"
]
],
"asks": "one"
},
{
"pieces": [
[
"v",
"so"
],
[
"",
", "
],
[
"v",
"S₁"
],
[
"",
", "
],
[
"v",
"E"
],
[
"",
" ⊢ "
],
[
"v",
"e₂"
],
[
"",
" : "
],
[
"v",
"v"
],
[
"",
", "
],
[
"v",
"S₂"
]
],
"asks": "one"
},
{
"pieces": [
[
"v",
"so"
],
[
"",
", "
],
[
"v",
"S₂"
],
[
"",
", "
],
[
"v",
"E"
],
[
"",
" ⊢ "
],
[
"p",
"while"
],
[
"",
" "
],
[
"v",
"e₁"
],
[
"",
" "
],
[
"p",
"loop"
],
[
"",
" "
],
[
"v",
"e₂"
],
[
"",
" "
],
[
"p",
"pool"
],
[
"",
" : "
],
[
"v",
"w"
],
[
"",
", "
],
[
"v",
"S₃"
]
]
}
],
"conclusion": [
[
"v",
"so"
],
[
"",
", "
],
[
"v",
"S"
],
[
"",
", "
],
[
"v",
"E"
],
[
"",
" ⊢ "
],
[
"p",
"while"
],
[
"",
" "
],
[
"v",
"e₁"
],
[
"",
" "
],
[
"p",
"loop"
],
[
"",
" "
],
[
"v",
"e₂"
],
[
"",
" "
],
[
"p",
"pool"
],
[
"",
" : "
],
[
"v",
"w"
],
[
"",
", "
],
[
"v",
"S₃"
]
],
"file": "crates/cool_meaning/specs/Evaluation.antt",
"line": 199,
"source": "eval p calls self env (trees.While at test body) = rule (loop (eval p calls self env test) (eval p calls self env body))",
"error": false
},
{
"kind": "rule",
"name": "While-False",
"premises": [
{
"pieces": [
[
"v",
"so"
],
[
"",
", "
],
[
"v",
"S"
],
[
"",
", "
],
[
"v",
"E"
],
[
"",
" ⊢ "
],
[
"v",
"e₁"
],
[
"",
" : Bool("
],
[
"n",
"false"
],
[
"",
"), "
],
[
"v",
"S₁"
]
],
"asks": "one"
}
],
"conclusion": [
[
"v",
"so"
],
[
"",
", "
],
[
"v",
"S"
],
[
"",
", "
],
[
"v",
"E"
],
[
"",
" ⊢ "
],
[
"p",
"while"
],
[
"",
" "
],
[
"v",
"e₁"
],
[
"",
" "
],
[
"p",
"loop"
],
[
"",
" "
],
[
"v",
"e₂"
],
[
"",
" "
],
[
"p",
"pool"
],
[
"",
" : void, "
],
[
"v",
"S₁"
]
],
"file": "crates/cool_meaning/specs/Evaluation.antt",
"line": 199,
"source": "eval p calls self env (trees.While at test body) = rule (loop (eval p calls self env test) (eval p calls self env body))",
"error": false
}
],
"program": "class Main inherits IO {\n  main() : Object {\n    let i : Int <- 0 in { while i < 3 loop { out_int(i); i <- i + 1; } pool; out_int(i); }\n  };\n};\n",
"prints": "0123",
"faults": [
{
"kind": "E9",
"words": "predicate is not Bool",
"mend": "write a condition of type Bool, for example `not x = 0`",
"case": null,
"files": [
{
"name": "p.cl",
"text": "class Main { a : Int; m(x : Int) : SELF_TYPE { self }; main() : Object { while 1 loop 2 pool }; };\n"
}
],
"says": "p.cl:1: E9: predicate is not Bool"
}
]
},
{
"kind": "form",
"forms": [
"block"
],
"heading": "Block",
"section": "7.7",
"types": "A block has the type of its last expression.",
"does": "The expressions are computed in order; the value of the last one is that of the block.",
"typing": [
{
"kind": "rule",
"name": "Block",
"premises": [
{
"pieces": [
[
"v",
"O"
],
[
"",
", "
],
[
"v",
"M"
],
[
"",
", "
],
[
"v",
"C"
],
[
"",
" ⊢ "
],
[
"v",
"e₁"
],
[
"",
" : "
],
[
"v",
"T₁"
]
]
},
{
"pieces": [
[
"",
"…"
]
]
},
{
"pieces": [
[
"v",
"O"
],
[
"",
", "
],
[
"v",
"M"
],
[
"",
", "
],
[
"v",
"C"
],
[
"",
" ⊢ "
],
[
"v",
"eₙ"
],
[
"",
" : "
],
[
"v",
"Tₙ"
]
]
}
],
"conclusion": [
[
"v",
"O"
],
[
"",
", "
],
[
"v",
"M"
],
[
"",
", "
],
[
"v",
"C"
],
[
"",
" ⊢ "
],
[
"p",
"{"
],
[
"",
" "
],
[
"v",
"e₁; …; eₙ;"
],
[
"",
" "
],
[
"p",
"}"
],
[
"",
" : "
],
[
"v",
"Tₙ"
]
],
"file": "crates/cool_rules/specs/Typing.antt",
"line": 116,
"source": "HasType p c scope (trees.Block at es) type = HaveItems p c scope object_type es type",
"error": false
}
],
"running": [
{
"kind": "rule",
"name": "Block",
"premises": [
{
"pieces": [
[
"v",
"so"
],
[
"",
", "
],
[
"v",
"S"
],
[
"",
", "
],
[
"v",
"E"
],
[
"",
" ⊢ "
],
[
"v",
"e₁"
],
[
"",
" : "
],
[
"v",
"v₁"
],
[
"",
", "
],
[
"v",
"S₁"
]
],
"asks": "one"
},
{
"pieces": [
[
"",
"…"
]
],
"asks": "several"
},
{
"pieces": [
[
"v",
"so"
],
[
"",
", "
],
[
"v",
"Sₙ₋₁"
],
[
"",
", "
],
[
"v",
"E"
],
[
"",
" ⊢ "
],
[
"v",
"eₙ"
],
[
"",
" : "
],
[
"v",
"vₙ"
],
[
"",
", "
],
[
"v",
"Sₙ"
]
],
"asks": "one"
}
],
"conclusion": [
[
"v",
"so"
],
[
"",
", "
],
[
"v",
"S"
],
[
"",
", "
],
[
"v",
"E"
],
[
"",
" ⊢ "
],
[
"p",
"{"
],
[
"",
" "
],
[
"v",
"e₁; …; eₙ;"
],
[
"",
" "
],
[
"p",
"}"
],
[
"",
" : "
],
[
"v",
"vₙ"
],
[
"",
", "
],
[
"v",
"Sₙ"
]
],
"file": "crates/cool_meaning/specs/Evaluation.antt",
"line": 200,
"source": "eval p calls self env (trees.Block at ts) = rule (eval_items p calls self env Void ts)",
"error": false
}
],
"program": "class Main inherits IO {\n  main() : Object {\n    out_int({ 1; 2; 3; })\n  };\n};\n",
"prints": "3",
"faults": []
},
{
"kind": "form",
"forms": [
"let"
],
"heading": "Let",
"section": "7.8",
"types": "The variable is in scope in the body, but not in its own initial value. The initial value must conform to its type.",
"does": "The initial value, or the default of the type, is stored at a new location; in the body the name has this location.",
"typing": [
{
"kind": "rule",
"name": "Let-No-Init",
"premises": [
{
"pieces": [
[
"v",
"x"
],
[
"",
" ≠ "
],
[
"p",
"self"
]
],
"faults": [
"E10"
]
},
{
"pieces": [
[
"",
"type("
],
[
"v",
"D"
],
[
"",
") = "
],
[
"v",
"T₁"
]
],
"faults": [
"E11"
]
},
{
"pieces": [
[
"v",
"O"
],
[
"",
"["
],
[
"v",
"T₁"
],
[
"",
"/"
],
[
"v",
"x"
],
[
"",
"], "
],
[
"v",
"M"
],
[
"",
", "
],
[
"v",
"C"
],
[
"",
" ⊢ "
],
[
"v",
"e"
],
[
"",
" : "
],
[
"v",
"T"
]
]
}
],
"conclusion": [
[
"v",
"O"
],
[
"",
", "
],
[
"v",
"M"
],
[
"",
", "
],
[
"v",
"C"
],
[
"",
" ⊢ "
],
[
"p",
"let"
],
[
"",
" "
],
[
"v",
"x"
],
[
"",
" "
],
[
"p",
":"
],
[
"",
" "
],
[
"v",
"D"
],
[
"",
" "
],
[
"p",
"in"
],
[
"",
" "
],
[
"v",
"e"
],
[
"",
" : "
],
[
"v",
"T"
]
],
"file": "crates/cool_rules/specs/Typing.antt",
"line": 117,
"source": "HasType p c scope (trees.Let at name declared init e) type =\n    (bound : Ty) × IsNotSelf name × Denotes p declared.name bound × HasInit p c scope bound init × HasType p c (with_name name bound scope) e type",
"error": false
},
{
"kind": "rule",
"name": "Let-Init",
"premises": [
{
"pieces": [
[
"v",
"x"
],
[
"",
" ≠ "
],
[
"p",
"self"
]
],
"faults": [
"E10"
]
},
{
"pieces": [
[
"",
"type("
],
[
"v",
"D"
],
[
"",
") = "
],
[
"v",
"T₁"
]
],
"faults": [
"E11"
]
},
{
"pieces": [
[
"v",
"O"
],
[
"",
", "
],
[
"v",
"M"
],
[
"",
", "
],
[
"v",
"C"
],
[
"",
" ⊢ "
],
[
"v",
"e₁"
],
[
"",
" : "
],
[
"v",
"T₂"
]
]
},
{
"pieces": [
[
"v",
"T₂"
],
[
"",
" ≤"
],
[
"s",
"C"
],
[
"",
" "
],
[
"v",
"T₁"
]
],
"faults": [
"E17"
]
},
{
"pieces": [
[
"v",
"O"
],
[
"",
"["
],
[
"v",
"T₁"
],
[
"",
"/"
],
[
"v",
"x"
],
[
"",
"], "
],
[
"v",
"M"
],
[
"",
", "
],
[
"v",
"C"
],
[
"",
" ⊢ "
],
[
"v",
"e₂"
],
[
"",
" : "
],
[
"v",
"T"
]
]
}
],
"conclusion": [
[
"v",
"O"
],
[
"",
", "
],
[
"v",
"M"
],
[
"",
", "
],
[
"v",
"C"
],
[
"",
" ⊢ "
],
[
"p",
"let"
],
[
"",
" "
],
[
"v",
"x"
],
[
"",
" "
],
[
"p",
":"
],
[
"",
" "
],
[
"v",
"D"
],
[
"",
" "
],
[
"p",
"<-"
],
[
"",
" "
],
[
"v",
"e₁"
],
[
"",
" "
],
[
"p",
"in"
],
[
"",
" "
],
[
"v",
"e₂"
],
[
"",
" : "
],
[
"v",
"T"
]
],
"file": "crates/cool_rules/specs/Typing.antt",
"line": 117,
"source": "HasType p c scope (trees.Let at name declared init e) type =\n    (bound : Ty) × IsNotSelf name × Denotes p declared.name bound × HasInit p c scope bound init × HasType p c (with_name name bound scope) e type",
"error": false
}
],
"running": [
{
"kind": "rule",
"name": "Let-No-Init",
"premises": [
{
"pieces": [
[
"v",
"l"
],
[
"",
" = newloc("
],
[
"v",
"S"
],
[
"",
"), "
],
[
"v",
"S₁"
],
[
"",
" = "
],
[
"v",
"S"
],
[
"",
"[default("
],
[
"v",
"D"
],
[
"",
")/"
],
[
"v",
"l"
],
[
"",
"]"
]
]
},
{
"pieces": [
[
"v",
"so"
],
[
"",
", "
],
[
"v",
"S₁"
],
[
"",
", "
],
[
"v",
"E"
],
[
"",
"["
],
[
"v",
"l"
],
[
"",
"/"
],
[
"v",
"x"
],
[
"",
"] ⊢ "
],
[
"v",
"e"
],
[
"",
" : "
],
[
"v",
"v"
],
[
"",
", "
],
[
"v",
"S₂"
]
],
"asks": "one"
}
],
"conclusion": [
[
"v",
"so"
],
[
"",
", "
],
[
"v",
"S"
],
[
"",
", "
],
[
"v",
"E"
],
[
"",
" ⊢ "
],
[
"p",
"let"
],
[
"",
" "
],
[
"v",
"x"
],
[
"",
" "
],
[
"p",
":"
],
[
"",
" "
],
[
"v",
"D"
],
[
"",
" "
],
[
"p",
"in"
],
[
"",
" "
],
[
"v",
"e"
],
[
"",
" : "
],
[
"v",
"v"
],
[
"",
", "
],
[
"v",
"S₂"
]
],
"file": "crates/cool_meaning/specs/Evaluation.antt",
"line": 201,
"source": "eval p calls self env (trees.Let at name declared init body) = rule (do\n  v ← eval_init p calls self env declared.name init\n  l ← locate v\n  eval p calls self (record { name = name; location = l } ∷ env) body)",
"error": false
},
{
"kind": "rule",
"name": "Let-Init",
"premises": [
{
"pieces": [
[
"v",
"so"
],
[
"",
", "
],
[
"v",
"S"
],
[
"",
", "
],
[
"v",
"E"
],
[
"",
" ⊢ "
],
[
"v",
"e₁"
],
[
"",
" : "
],
[
"v",
"v₁"
],
[
"",
", "
],
[
"v",
"S₁"
]
],
"asks": "one"
},
{
"pieces": [
[
"v",
"l"
],
[
"",
" = newloc("
],
[
"v",
"S₁"
],
[
"",
"), "
],
[
"v",
"S₂"
],
[
"",
" = "
],
[
"v",
"S₁"
],
[
"",
"["
],
[
"v",
"v₁"
],
[
"",
"/"
],
[
"v",
"l"
],
[
"",
"]"
]
]
},
{
"pieces": [
[
"v",
"so"
],
[
"",
", "
],
[
"v",
"S₂"
],
[
"",
", "
],
[
"v",
"E"
],
[
"",
"["
],
[
"v",
"l"
],
[
"",
"/"
],
[
"v",
"x"
],
[
"",
"] ⊢ "
],
[
"v",
"e₂"
],
[
"",
" : "
],
[
"v",
"v₂"
],
[
"",
", "
],
[
"v",
"S₃"
]
],
"asks": "one"
}
],
"conclusion": [
[
"v",
"so"
],
[
"",
", "
],
[
"v",
"S"
],
[
"",
", "
],
[
"v",
"E"
],
[
"",
" ⊢ "
],
[
"p",
"let"
],
[
"",
" "
],
[
"v",
"x"
],
[
"",
" "
],
[
"p",
":"
],
[
"",
" "
],
[
"v",
"D"
],
[
"",
" "
],
[
"p",
"<-"
],
[
"",
" "
],
[
"v",
"e₁"
],
[
"",
" "
],
[
"p",
"in"
],
[
"",
" "
],
[
"v",
"e₂"
],
[
"",
" : "
],
[
"v",
"v₂"
],
[
"",
", "
],
[
"v",
"S₃"
]
],
"file": "crates/cool_meaning/specs/Evaluation.antt",
"line": 201,
"source": "eval p calls self env (trees.Let at name declared init body) = rule (do\n  v ← eval_init p calls self env declared.name init\n  l ← locate v\n  eval p calls self (record { name = name; location = l } ∷ env) body)",
"error": false
}
],
"program": "class Main inherits IO {\n  main() : Object {\n    let x : Int <- 2, s : String in { out_int(x * 3); out_int(s.length()); }\n  };\n};\n",
"prints": "60",
"faults": [
{
"kind": "E10",
"words": "self cannot be bound",
"mend": "choose another name",
"case": "check-E10-smallest",
"files": [
{
"name": "p.cl",
"text": "class Main { a : Int; m(x : Int) : SELF_TYPE { self }; main() : Object { let self : Int in 1 }; };\n"
}
],
"says": "p.cl:1: E10: self cannot be bound"
},
{
"kind": "E11",
"words": "unknown type",
"mend": "add its file to the call, or correct the name",
"case": null,
"files": [
{
"name": "p.cl",
"text": "class Main { a : Int; m(x : Int) : SELF_TYPE { self }; main() : Object { let x : B in 1 }; };\n"
}
],
"says": "p.cl:1: E11: unknown type"
},
{
"kind": "E17",
"words": "initial value does not conform",
"mend": "give a value of the declared class, or of a class below it",
"case": "check-E17-smallest",
"files": [
{
"name": "p.cl",
"text": "class Main { a : Int; m(x : Int) : SELF_TYPE { self }; main() : Object { let y : Bool <- a in y }; };\n"
}
],
"says": "p.cl:1: E17: initial value does not conform"
}
]
},
{
"kind": "form",
"forms": [
"case"
],
"heading": "Case",
"section": "7.9",
"types": "In each branch the variable has the class of the branch. No class occurs twice. The type is the least one above all branches.",
"does": "The branch with the nearest ancestor of the value's class is taken. Void, and a value without a branch, are errors.",
"typing": [
{
"kind": "rule",
"name": "Case",
"premises": [
{
"pieces": [
[
"v",
"O"
],
[
"",
", "
],
[
"v",
"M"
],
[
"",
", "
],
[
"v",
"C"
],
[
"",
" ⊢ "
],
[
"v",
"e"
],
[
"",
" : "
],
[
"v",
"T₀"
]
]
},
{
"pieces": [
[
"v",
"O"
],
[
"",
", "
],
[
"v",
"M"
],
[
"",
", "
],
[
"v",
"C"
],
[
"",
" ⊢ "
],
[
"v",
"b₁, …, bₙ"
],
[
"",
" : "
],
[
"v",
"T₁, …, Tₙ"
]
]
},
{
"pieces": [
[
"",
"no class twice in types("
],
[
"v",
"b₁, …, bₙ"
],
[
"",
")"
]
],
"faults": [
"E13"
]
},
{
"pieces": [
[
"v",
"T"
],
[
"",
" = ⊔"
],
[
"s",
"C"
],
[
"",
" "
],
[
"v",
"T₁, …, Tₙ"
]
]
}
],
"conclusion": [
[
"v",
"O"
],
[
"",
", "
],
[
"v",
"M"
],
[
"",
", "
],
[
"v",
"C"
],
[
"",
" ⊢ "
],
[
"p",
"case"
],
[
"",
" "
],
[
"v",
"e"
],
[
"",
" "
],
[
"p",
"of"
],
[
"",
" "
],
[
"v",
"b₁, …, bₙ"
],
[
"",
" "
],
[
"p",
"esac"
],
[
"",
" : "
],
[
"v",
"T"
]
],
"file": "crates/cool_rules/specs/Typing.antt",
"line": 119,
"source": "HasType p c scope (trees.Case at e cs) type =\n    (t : Ty) × (ts : List Ty) × HasType p c scope e t × HaveBranches p c scope cs ts × AreDifferent (branch_types cs) × IsJoinOfBranches p c ts type",
"error": false
}
],
"running": [
{
"kind": "rule",
"name": "Case-CaseVoid",
"premises": [
{
"pieces": [
[
"v",
"so"
],
[
"",
", "
],
[
"v",
"S"
],
[
"",
", "
],
[
"v",
"E"
],
[
"",
" ⊢ "
],
[
"v",
"e"
],
[
"",
" : void, "
],
[
"v",
"S₁"
]
],
"asks": "one"
}
],
"conclusion": [
[
"v",
"so"
],
[
"",
", "
],
[
"v",
"S"
],
[
"",
", "
],
[
"v",
"E"
],
[
"",
" ⊢ "
],
[
"p",
"case"
],
[
"",
" "
],
[
"v",
"e"
],
[
"",
" "
],
[
"p",
"of"
],
[
"",
" "
],
[
"v",
"b₁, …, bₙ"
],
[
"",
" "
],
[
"p",
"esac"
],
[
"",
" : error “Case on void”, "
],
[
"v",
"S₁"
]
],
"file": "crates/cool_meaning/specs/Evaluation.antt",
"line": 205,
"source": "eval p calls self env (trees.Case at t cs) = rule (do\n  v ← eval p calls self env t\n  c ← class_or (CaseVoid at) v\n  working (branch_count cs * length (chain p c)) (take_branch at c v (nearest p (branch_of p calls self env cs) (chain p c))))",
"error": true
},
{
"kind": "rule",
"name": "Case-NoBranch",
"premises": [
{
"pieces": [
[
"v",
"so"
],
[
"",
", "
],
[
"v",
"S"
],
[
"",
", "
],
[
"v",
"E"
],
[
"",
" ⊢ "
],
[
"v",
"e"
],
[
"",
" : "
],
[
"v",
"v"
],
[
"",
", "
],
[
"v",
"S₁"
]
],
"asks": "one"
},
{
"pieces": [
[
"",
"class("
],
[
"v",
"v"
],
[
"",
") = "
],
[
"v",
"C"
]
]
},
{
"pieces": [
[
"",
"there is no nearest("
],
[
"v",
"b₁, …, bₙ"
],
[
"",
", chain("
],
[
"v",
"C"
],
[
"",
"))"
]
]
}
],
"conclusion": [
[
"v",
"so"
],
[
"",
", "
],
[
"v",
"S"
],
[
"",
", "
],
[
"v",
"E"
],
[
"",
" ⊢ "
],
[
"p",
"case"
],
[
"",
" "
],
[
"v",
"e"
],
[
"",
" "
],
[
"p",
"of"
],
[
"",
" "
],
[
"v",
"b₁, …, bₙ"
],
[
"",
" "
],
[
"p",
"esac"
],
[
"",
" : error “No matching branch for class ”, "
],
[
"v",
"S₁"
]
],
"file": "crates/cool_meaning/specs/Evaluation.antt",
"line": 205,
"source": "eval p calls self env (trees.Case at t cs) = rule (do\n  v ← eval p calls self env t\n  c ← class_or (CaseVoid at) v\n  working (branch_count cs * length (chain p c)) (take_branch at c v (nearest p (branch_of p calls self env cs) (chain p c))))",
"error": true
},
{
"kind": "rule",
"name": "Case",
"premises": [
{
"pieces": [
[
"v",
"so"
],
[
"",
", "
],
[
"v",
"S"
],
[
"",
", "
],
[
"v",
"E"
],
[
"",
" ⊢ "
],
[
"v",
"e₁"
],
[
"",
" : "
],
[
"v",
"v₁"
],
[
"",
", "
],
[
"v",
"S₁"
]
],
"asks": "one"
},
{
"pieces": [
[
"",
"class("
],
[
"v",
"v₁"
],
[
"",
") = "
],
[
"v",
"C"
]
]
},
{
"pieces": [
[
"",
"nearest("
],
[
"v",
"b₁, …, bₙ"
],
[
"",
", chain("
],
[
"v",
"C"
],
[
"",
")) = "
],
[
"v",
"x"
],
[
"",
" "
],
[
"p",
":"
],
[
"",
" "
],
[
"v",
"D′"
],
[
"",
" "
],
[
"p",
"=>"
],
[
"",
" "
],
[
"v",
"e₂"
]
]
},
{
"pieces": [
[
"v",
"l"
],
[
"",
" = newloc("
],
[
"v",
"S₁"
],
[
"",
"), "
],
[
"v",
"S₂"
],
[
"",
" = "
],
[
"v",
"S₁"
],
[
"",
"["
],
[
"v",
"v₁"
],
[
"",
"/"
],
[
"v",
"l"
],
[
"",
"]"
]
]
},
{
"pieces": [
[
"v",
"so"
],
[
"",
", "
],
[
"v",
"S₂"
],
[
"",
", "
],
[
"v",
"E"
],
[
"",
"["
],
[
"v",
"l"
],
[
"",
"/"
],
[
"v",
"x"
],
[
"",
"] ⊢ "
],
[
"v",
"e₂"
],
[
"",
" : "
],
[
"v",
"v₂"
],
[
"",
", "
],
[
"v",
"S₃"
]
],
"asks": "one"
}
],
"conclusion": [
[
"v",
"so"
],
[
"",
", "
],
[
"v",
"S"
],
[
"",
", "
],
[
"v",
"E"
],
[
"",
" ⊢ "
],
[
"p",
"case"
],
[
"",
" "
],
[
"v",
"e₁"
],
[
"",
" "
],
[
"p",
"of"
],
[
"",
" "
],
[
"v",
"b₁, …, bₙ"
],
[
"",
" "
],
[
"p",
"esac"
],
[
"",
" : "
],
[
"v",
"v₂"
],
[
"",
", "
],
[
"v",
"S₃"
]
],
"file": "crates/cool_meaning/specs/Evaluation.antt",
"line": 205,
"source": "eval p calls self env (trees.Case at t cs) = rule (do\n  v ← eval p calls self env t\n  c ← class_or (CaseVoid at) v\n  working (branch_count cs * length (chain p c)) (take_branch at c v (nearest p (branch_of p calls self env cs) (chain p c))))",
"error": false
}
],
"program": "class Main inherits IO {\n  main() : Object {\n    let o : Object <- 5 in case o of s : String => out_string(\"text\"); n : Int => out_int(n + 1); x : Object => out_string(\"else\"); esac\n  };\n};\n",
"prints": "6",
"faults": [
{
"kind": "E10",
"words": "self cannot be bound",
"mend": "choose another name",
"case": null,
"files": [
{
"name": "p.cl",
"text": "class Main { a : Int; m(x : Int) : SELF_TYPE { self }; main() : Object { case 1 of self : Int => 1; esac }; };\n"
}
],
"says": "p.cl:1: E10: self cannot be bound"
},
{
"kind": "E11",
"words": "unknown type",
"mend": "add its file to the call, or correct the name",
"case": null,
"files": [
{
"name": "p.cl",
"text": "class Main { a : Int; m(x : Int) : SELF_TYPE { self }; main() : Object { case 1 of x : B => 1; esac }; };\n"
}
],
"says": "p.cl:1: E11: unknown type"
},
{
"kind": "E12",
"words": "SELF_TYPE in a branch",
"mend": "write the name of a class",
"case": "check-E12-smallest",
"files": [
{
"name": "p.cl",
"text": "class Main { a : Int; m(x : Int) : SELF_TYPE { self }; main() : Object { case a of y : SELF_TYPE => 1; esac }; };\n"
}
],
"says": "p.cl:1: E12: SELF_TYPE in a branch"
},
{
"kind": "E13",
"words": "branch type twice",
"mend": "keep one branch for each class",
"case": "check-E13-smallest",
"files": [
{
"name": "p.cl",
"text": "class Main { a : Int; m(x : Int) : SELF_TYPE { self }; main() : Object { case a of y : Int => 1; z : Int => 2; esac }; };\n"
}
],
"says": "p.cl:1: E13: branch type twice"
}
]
},
{
"kind": "form",
"forms": [
"new"
],
"heading": "New",
"section": "7.10",
"types": "A new object has the named class; SELF_TYPE means the class of self.",
"does": "All attributes get a location with the default of their type, and then their initial values in order, inherited ones first.",
"typing": [
{
"kind": "rule",
"name": "New",
"premises": [
{
"pieces": [
[
"",
"type("
],
[
"v",
"D"
],
[
"",
") = "
],
[
"v",
"T"
]
],
"faults": [
"E11"
]
}
],
"conclusion": [
[
"v",
"O"
],
[
"",
", "
],
[
"v",
"M"
],
[
"",
", "
],
[
"v",
"C"
],
[
"",
" ⊢ "
],
[
"p",
"new"
],
[
"",
" "
],
[
"v",
"D"
],
[
"",
" : "
],
[
"v",
"T"
]
],
"file": "crates/cool_rules/specs/Typing.antt",
"line": 121,
"source": "HasType p c scope (trees.New at class) type = Denotes p class.name type",
"error": false
}
],
"running": [
{
"kind": "rule",
"name": "New-Int",
"premises": [
{
"pieces": [
[
"",
"class("
],
[
"v",
"D"
],
[
"",
", "
],
[
"v",
"so"
],
[
"",
") = "
],
[
"v",
"C"
]
]
},
{
"pieces": [
[
"v",
"C"
],
[
"",
" = "
],
[
"p",
"Int"
]
]
}
],
"conclusion": [
[
"v",
"so"
],
[
"",
", "
],
[
"v",
"S"
],
[
"",
", "
],
[
"v",
"E"
],
[
"",
" ⊢ "
],
[
"p",
"new"
],
[
"",
" "
],
[
"v",
"D"
],
[
"",
" : Int(0), "
],
[
"v",
"S"
]
],
"file": "crates/cool_meaning/specs/Evaluation.antt",
"line": 209,
"source": "eval p calls self env (trees.New at class) = make p calls (class_made p self class.name)",
"error": false
},
{
"kind": "rule",
"name": "New-Bool",
"premises": [
{
"pieces": [
[
"",
"class("
],
[
"v",
"D"
],
[
"",
", "
],
[
"v",
"so"
],
[
"",
") = "
],
[
"v",
"C"
]
]
},
{
"pieces": [
[
"v",
"C"
],
[
"",
" ≠ "
],
[
"p",
"Int"
]
]
},
{
"pieces": [
[
"v",
"C"
],
[
"",
" = "
],
[
"p",
"Bool"
]
]
}
],
"conclusion": [
[
"v",
"so"
],
[
"",
", "
],
[
"v",
"S"
],
[
"",
", "
],
[
"v",
"E"
],
[
"",
" ⊢ "
],
[
"p",
"new"
],
[
"",
" "
],
[
"v",
"D"
],
[
"",
" : Bool("
],
[
"n",
"false"
],
[
"",
"), "
],
[
"v",
"S"
]
],
"file": "crates/cool_meaning/specs/Evaluation.antt",
"line": 209,
"source": "eval p calls self env (trees.New at class) = make p calls (class_made p self class.name)",
"error": false
},
{
"kind": "rule",
"name": "New-String",
"premises": [
{
"pieces": [
[
"",
"class("
],
[
"v",
"D"
],
[
"",
", "
],
[
"v",
"so"
],
[
"",
") = "
],
[
"v",
"C"
]
]
},
{
"pieces": [
[
"v",
"C"
],
[
"",
" ≠ "
],
[
"p",
"Int"
]
]
},
{
"pieces": [
[
"v",
"C"
],
[
"",
" ≠ "
],
[
"p",
"Bool"
]
]
},
{
"pieces": [
[
"v",
"C"
],
[
"",
" = "
],
[
"p",
"String"
]
]
}
],
"conclusion": [
[
"v",
"so"
],
[
"",
", "
],
[
"v",
"S"
],
[
"",
", "
],
[
"v",
"E"
],
[
"",
" ⊢ "
],
[
"p",
"new"
],
[
"",
" "
],
[
"v",
"D"
],
[
"",
" : String(“”), "
],
[
"v",
"S"
]
],
"file": "crates/cool_meaning/specs/Evaluation.antt",
"line": 209,
"source": "eval p calls self env (trees.New at class) = make p calls (class_made p self class.name)",
"error": false
},
{
"kind": "rule",
"name": "New",
"premises": [
{
"pieces": [
[
"",
"class("
],
[
"v",
"D"
],
[
"",
", "
],
[
"v",
"so"
],
[
"",
") = "
],
[
"v",
"C"
]
]
},
{
"pieces": [
[
"v",
"C"
],
[
"",
" ≠ "
],
[
"p",
"Int"
]
]
},
{
"pieces": [
[
"v",
"C"
],
[
"",
" ≠ "
],
[
"p",
"Bool"
]
]
},
{
"pieces": [
[
"v",
"C"
],
[
"",
" ≠ "
],
[
"p",
"String"
]
]
},
{
"pieces": [
[
"v",
"l₁, …, lₙ"
],
[
"",
" = newloc("
],
[
"v",
"S"
],
[
"",
"), "
],
[
"v",
"S₁"
],
[
"",
" = "
],
[
"v",
"S"
],
[
"",
"[defaults(attributes("
],
[
"v",
"C"
],
[
"",
"))/"
],
[
"v",
"l₁, …, lₙ"
],
[
"",
"]"
]
]
},
{
"pieces": [
[
"v",
"i"
],
[
"",
" is new, "
],
[
"v",
"S₂"
],
[
"",
" = "
],
[
"v",
"S₁"
],
[
"",
" with "
],
[
"v",
"i"
],
[
"",
" drawn"
]
]
},
{
"pieces": [
[
"v",
"C"
],
[
"",
"#"
],
[
"v",
"i"
],
[
"",
"("
],
[
"v",
"l₁, …, lₙ"
],
[
"",
"), "
],
[
"v",
"S₂"
],
[
"",
" ⊢ initial values of "
],
[
"v",
"C"
],
[
"",
" : "
],
[
"v",
"v"
],
[
"",
", "
],
[
"v",
"S₃"
]
]
}
],
"conclusion": [
[
"v",
"so"
],
[
"",
", "
],
[
"v",
"S"
],
[
"",
", "
],
[
"v",
"E"
],
[
"",
" ⊢ "
],
[
"p",
"new"
],
[
"",
" "
],
[
"v",
"D"
],
[
"",
" : "
],
[
"v",
"C"
],
[
"",
"#"
],
[
"v",
"i"
],
[
"",
"("
],
[
"v",
"l₁, …, lₙ"
],
[
"",
"), "
],
[
"v",
"S₃"
]
],
"file": "crates/cool_meaning/specs/Evaluation.antt",
"line": 209,
"source": "eval p calls self env (trees.New at class) = make p calls (class_made p self class.name)",
"error": false
}
],
"program": "class P { x : Int <- 4; y : Int <- x + 1; y() : Int { y }; };\nclass Main inherits IO {\n  main() : Object { out_int((new P).y()) };\n};\n",
"prints": "5",
"faults": [
{
"kind": "E11",
"words": "unknown type",
"mend": "add its file to the call, or correct the name",
"case": "check-E11-smallest",
"files": [
{
"name": "p.cl",
"text": "class Main { a : Int; m(x : Int) : SELF_TYPE { self }; main() : Object { new Nope }; };\n"
}
],
"says": "p.cl:1: E11: unknown type"
}
]
},
{
"kind": "form",
"forms": [
"isvoid"
],
"heading": "Test of void",
"section": "7.11",
"types": "The expression may have any type; the test is a Bool.",
"does": "True for void, and false for each object.",
"typing": [
{
"kind": "rule",
"name": "IsVoid",
"premises": [
{
"pieces": [
[
"v",
"O"
],
[
"",
", "
],
[
"v",
"M"
],
[
"",
", "
],
[
"v",
"C"
],
[
"",
" ⊢ "
],
[
"v",
"e"
],
[
"",
" : "
],
[
"v",
"T"
]
]
}
],
"conclusion": [
[
"v",
"O"
],
[
"",
", "
],
[
"v",
"M"
],
[
"",
", "
],
[
"v",
"C"
],
[
"",
" ⊢ "
],
[
"p",
"isvoid"
],
[
"",
" "
],
[
"v",
"e"
],
[
"",
" : "
],
[
"p",
"Bool"
]
],
"file": "crates/cool_rules/specs/Typing.antt",
"line": 122,
"source": "HasType p c scope (trees.IsVoid at e) type = (t : Ty) × HasType p c scope e t × (type ≡ bool_type)",
"error": false
}
],
"running": [
{
"kind": "rule",
"name": "IsVoid",
"premises": [
{
"pieces": [
[
"v",
"so"
],
[
"",
", "
],
[
"v",
"S"
],
[
"",
", "
],
[
"v",
"E"
],
[
"",
" ⊢ "
],
[
"v",
"e"
],
[
"",
" : "
],
[
"v",
"v"
],
[
"",
", "
],
[
"v",
"S₁"
]
],
"asks": "one"
}
],
"conclusion": [
[
"v",
"so"
],
[
"",
", "
],
[
"v",
"S"
],
[
"",
", "
],
[
"v",
"E"
],
[
"",
" ⊢ "
],
[
"p",
"isvoid"
],
[
"",
" "
],
[
"v",
"e"
],
[
"",
" : Bool("
],
[
"v",
"v"
],
[
"",
" is void), "
],
[
"v",
"S₁"
]
],
"file": "crates/cool_meaning/specs/Evaluation.antt",
"line": 210,
"source": "eval p calls self env (trees.IsVoid at t) = rule (do\n  v ← eval p calls self env t\n  give (Bool (is_void v)))",
"error": false
}
],
"program": "class Main inherits IO {\n  main() : Object {\n    let o : Object in if isvoid o then out_string(\"void\") else abort() fi\n  };\n};\n",
"prints": "void",
"faults": []
},
{
"kind": "form",
"forms": [
"+",
"-",
"*",
"/"
],
"heading": "Arithmetic",
"section": "7.12",
"types": "Both operands are Int, and so is the result.",
"does": "The left operand is computed first. A result beyond 32 bits, and a division by zero, are errors. A quotient is rounded towards zero.",
"typing": [
{
"kind": "rule",
"name": "Arith",
"premises": [
{
"pieces": [
[
"v",
"O"
],
[
"",
", "
],
[
"v",
"M"
],
[
"",
", "
],
[
"v",
"C"
],
[
"",
" ⊢ "
],
[
"v",
"e₁"
],
[
"",
" : "
],
[
"p",
"Int"
]
],
"faults": [
"E14"
]
},
{
"pieces": [
[
"v",
"O"
],
[
"",
", "
],
[
"v",
"M"
],
[
"",
", "
],
[
"v",
"C"
],
[
"",
" ⊢ "
],
[
"v",
"e₂"
],
[
"",
" : "
],
[
"p",
"Int"
]
],
"faults": [
"E14"
]
}
],
"conclusion": [
[
"v",
"O"
],
[
"",
", "
],
[
"v",
"M"
],
[
"",
", "
],
[
"v",
"C"
],
[
"",
" ⊢ "
],
[
"v",
"e₁"
],
[
"",
" "
],
[
"v",
"op"
],
[
"",
" "
],
[
"v",
"e₂"
],
[
"",
" : "
],
[
"p",
"Int"
]
],
"file": "crates/cool_rules/specs/Typing.antt",
"line": 125,
"source": "HasType p c scope (trees.Arith at op a b) type = HasType p c scope a int_type × HasType p c scope b int_type × (type ≡ int_type)",
"error": false
}
],
"running": [
{
"kind": "rule",
"name": "Add",
"premises": [
{
"pieces": [
[
"v",
"so"
],
[
"",
", "
],
[
"v",
"S"
],
[
"",
", "
],
[
"v",
"E"
],
[
"",
" ⊢ "
],
[
"v",
"e₁"
],
[
"",
" : Int("
],
[
"v",
"m"
],
[
"",
"), "
],
[
"v",
"S₁"
]
],
"asks": "one"
},
{
"pieces": [
[
"v",
"so"
],
[
"",
", "
],
[
"v",
"S₁"
],
[
"",
", "
],
[
"v",
"E"
],
[
"",
" ⊢ "
],
[
"v",
"e₂"
],
[
"",
" : Int("
],
[
"v",
"n"
],
[
"",
"), "
],
[
"v",
"S₂"
]
],
"asks": "one"
},
{
"pieces": [
[
"",
"−2³¹ ≤ "
],
[
"v",
"m"
],
[
"",
" + "
],
[
"v",
"n"
],
[
"",
" < 2³¹"
]
]
}
],
"conclusion": [
[
"v",
"so"
],
[
"",
", "
],
[
"v",
"S"
],
[
"",
", "
],
[
"v",
"E"
],
[
"",
" ⊢ "
],
[
"v",
"e₁"
],
[
"",
" "
],
[
"p",
"+"
],
[
"",
" "
],
[
"v",
"e₂"
],
[
"",
" : Int("
],
[
"v",
"m"
],
[
"",
" + "
],
[
"v",
"n"
],
[
"",
"), "
],
[
"v",
"S₂"
]
],
"file": "crates/cool_meaning/specs/Evaluation.antt",
"line": 221,
"source": "eval p calls self env (trees.Arith at op a b) = rule (do\n  v ← eval p calls self env a\n  w ← eval p calls self env b\n  m ← as_number v\n  n ← as_number w\n  arithmetic op at m n)",
"error": false
},
{
"kind": "rule",
"name": "Add-Overflow",
"premises": [
{
"pieces": [
[
"v",
"so"
],
[
"",
", "
],
[
"v",
"S"
],
[
"",
", "
],
[
"v",
"E"
],
[
"",
" ⊢ "
],
[
"v",
"e₁"
],
[
"",
" : Int("
],
[
"v",
"m"
],
[
"",
"), "
],
[
"v",
"S₁"
]
],
"asks": "one"
},
{
"pieces": [
[
"v",
"so"
],
[
"",
", "
],
[
"v",
"S₁"
],
[
"",
", "
],
[
"v",
"E"
],
[
"",
" ⊢ "
],
[
"v",
"e₂"
],
[
"",
" : Int("
],
[
"v",
"n"
],
[
"",
"), "
],
[
"v",
"S₂"
]
],
"asks": "one"
},
{
"pieces": [
[
"",
"not −2³¹ ≤ "
],
[
"v",
"m"
],
[
"",
" + "
],
[
"v",
"n"
],
[
"",
" < 2³¹"
]
]
}
],
"conclusion": [
[
"v",
"so"
],
[
"",
", "
],
[
"v",
"S"
],
[
"",
", "
],
[
"v",
"E"
],
[
"",
" ⊢ "
],
[
"v",
"e₁"
],
[
"",
" "
],
[
"p",
"+"
],
[
"",
" "
],
[
"v",
"e₂"
],
[
"",
" : error “Arithmetic overflow”, "
],
[
"v",
"S₂"
]
],
"file": "crates/cool_meaning/specs/Evaluation.antt",
"line": 221,
"source": "eval p calls self env (trees.Arith at op a b) = rule (do\n  v ← eval p calls self env a\n  w ← eval p calls self env b\n  m ← as_number v\n  n ← as_number w\n  arithmetic op at m n)",
"error": true
},
{
"kind": "rule",
"name": "Sub",
"premises": [
{
"pieces": [
[
"v",
"so"
],
[
"",
", "
],
[
"v",
"S"
],
[
"",
", "
],
[
"v",
"E"
],
[
"",
" ⊢ "
],
[
"v",
"e₁"
],
[
"",
" : Int("
],
[
"v",
"m"
],
[
"",
"), "
],
[
"v",
"S₁"
]
],
"asks": "one"
},
{
"pieces": [
[
"v",
"so"
],
[
"",
", "
],
[
"v",
"S₁"
],
[
"",
", "
],
[
"v",
"E"
],
[
"",
" ⊢ "
],
[
"v",
"e₂"
],
[
"",
" : Int("
],
[
"v",
"n"
],
[
"",
"), "
],
[
"v",
"S₂"
]
],
"asks": "one"
},
{
"pieces": [
[
"",
"−2³¹ ≤ "
],
[
"v",
"m"
],
[
"",
" − "
],
[
"v",
"n"
],
[
"",
" < 2³¹"
]
]
}
],
"conclusion": [
[
"v",
"so"
],
[
"",
", "
],
[
"v",
"S"
],
[
"",
", "
],
[
"v",
"E"
],
[
"",
" ⊢ "
],
[
"v",
"e₁"
],
[
"",
" "
],
[
"p",
"-"
],
[
"",
" "
],
[
"v",
"e₂"
],
[
"",
" : Int("
],
[
"v",
"m"
],
[
"",
" − "
],
[
"v",
"n"
],
[
"",
"), "
],
[
"v",
"S₂"
]
],
"file": "crates/cool_meaning/specs/Evaluation.antt",
"line": 221,
"source": "eval p calls self env (trees.Arith at op a b) = rule (do\n  v ← eval p calls self env a\n  w ← eval p calls self env b\n  m ← as_number v\n  n ← as_number w\n  arithmetic op at m n)",
"error": false
},
{
"kind": "rule",
"name": "Sub-Overflow",
"premises": [
{
"pieces": [
[
"v",
"so"
],
[
"",
", "
],
[
"v",
"S"
],
[
"",
", "
],
[
"v",
"E"
],
[
"",
" ⊢ "
],
[
"v",
"e₁"
],
[
"",
" : Int("
],
[
"v",
"m"
],
[
"",
"), "
],
[
"v",
"S₁"
]
],
"asks": "one"
},
{
"pieces": [
[
"v",
"so"
],
[
"",
", "
],
[
"v",
"S₁"
],
[
"",
", "
],
[
"v",
"E"
],
[
"",
" ⊢ "
],
[
"v",
"e₂"
],
[
"",
" : Int("
],
[
"v",
"n"
],
[
"",
"), "
],
[
"v",
"S₂"
]
],
"asks": "one"
},
{
"pieces": [
[
"",
"not −2³¹ ≤ "
],
[
"v",
"m"
],
[
"",
" − "
],
[
"v",
"n"
],
[
"",
" < 2³¹"
]
]
}
],
"conclusion": [
[
"v",
"so"
],
[
"",
", "
],
[
"v",
"S"
],
[
"",
", "
],
[
"v",
"E"
],
[
"",
" ⊢ "
],
[
"v",
"e₁"
],
[
"",
" "
],
[
"p",
"-"
],
[
"",
" "
],
[
"v",
"e₂"
],
[
"",
" : error “Arithmetic overflow”, "
],
[
"v",
"S₂"
]
],
"file": "crates/cool_meaning/specs/Evaluation.antt",
"line": 221,
"source": "eval p calls self env (trees.Arith at op a b) = rule (do\n  v ← eval p calls self env a\n  w ← eval p calls self env b\n  m ← as_number v\n  n ← as_number w\n  arithmetic op at m n)",
"error": true
},
{
"kind": "rule",
"name": "Mul",
"premises": [
{
"pieces": [
[
"v",
"so"
],
[
"",
", "
],
[
"v",
"S"
],
[
"",
", "
],
[
"v",
"E"
],
[
"",
" ⊢ "
],
[
"v",
"e₁"
],
[
"",
" : Int("
],
[
"v",
"m"
],
[
"",
"), "
],
[
"v",
"S₁"
]
],
"asks": "one"
},
{
"pieces": [
[
"v",
"so"
],
[
"",
", "
],
[
"v",
"S₁"
],
[
"",
", "
],
[
"v",
"E"
],
[
"",
" ⊢ "
],
[
"v",
"e₂"
],
[
"",
" : Int("
],
[
"v",
"n"
],
[
"",
"), "
],
[
"v",
"S₂"
]
],
"asks": "one"
},
{
"pieces": [
[
"",
"−2³¹ ≤ "
],
[
"v",
"m"
],
[
"",
" · "
],
[
"v",
"n"
],
[
"",
" < 2³¹"
]
]
}
],
"conclusion": [
[
"v",
"so"
],
[
"",
", "
],
[
"v",
"S"
],
[
"",
", "
],
[
"v",
"E"
],
[
"",
" ⊢ "
],
[
"v",
"e₁"
],
[
"",
" "
],
[
"p",
"*"
],
[
"",
" "
],
[
"v",
"e₂"
],
[
"",
" : Int("
],
[
"v",
"m"
],
[
"",
" · "
],
[
"v",
"n"
],
[
"",
"), "
],
[
"v",
"S₂"
]
],
"file": "crates/cool_meaning/specs/Evaluation.antt",
"line": 221,
"source": "eval p calls self env (trees.Arith at op a b) = rule (do\n  v ← eval p calls self env a\n  w ← eval p calls self env b\n  m ← as_number v\n  n ← as_number w\n  arithmetic op at m n)",
"error": false
},
{
"kind": "rule",
"name": "Mul-Overflow",
"premises": [
{
"pieces": [
[
"v",
"so"
],
[
"",
", "
],
[
"v",
"S"
],
[
"",
", "
],
[
"v",
"E"
],
[
"",
" ⊢ "
],
[
"v",
"e₁"
],
[
"",
" : Int("
],
[
"v",
"m"
],
[
"",
"), "
],
[
"v",
"S₁"
]
],
"asks": "one"
},
{
"pieces": [
[
"v",
"so"
],
[
"",
", "
],
[
"v",
"S₁"
],
[
"",
", "
],
[
"v",
"E"
],
[
"",
" ⊢ "
],
[
"v",
"e₂"
],
[
"",
" : Int("
],
[
"v",
"n"
],
[
"",
"), "
],
[
"v",
"S₂"
]
],
"asks": "one"
},
{
"pieces": [
[
"",
"not −2³¹ ≤ "
],
[
"v",
"m"
],
[
"",
" · "
],
[
"v",
"n"
],
[
"",
" < 2³¹"
]
]
}
],
"conclusion": [
[
"v",
"so"
],
[
"",
", "
],
[
"v",
"S"
],
[
"",
", "
],
[
"v",
"E"
],
[
"",
" ⊢ "
],
[
"v",
"e₁"
],
[
"",
" "
],
[
"p",
"*"
],
[
"",
" "
],
[
"v",
"e₂"
],
[
"",
" : error “Arithmetic overflow”, "
],
[
"v",
"S₂"
]
],
"file": "crates/cool_meaning/specs/Evaluation.antt",
"line": 221,
"source": "eval p calls self env (trees.Arith at op a b) = rule (do\n  v ← eval p calls self env a\n  w ← eval p calls self env b\n  m ← as_number v\n  n ← as_number w\n  arithmetic op at m n)",
"error": true
},
{
"kind": "rule",
"name": "Div-DivisionByZero",
"premises": [
{
"pieces": [
[
"v",
"so"
],
[
"",
", "
],
[
"v",
"S"
],
[
"",
", "
],
[
"v",
"E"
],
[
"",
" ⊢ "
],
[
"v",
"e₁"
],
[
"",
" : Int("
],
[
"v",
"m"
],
[
"",
"), "
],
[
"v",
"S₁"
]
],
"asks": "one"
},
{
"pieces": [
[
"v",
"so"
],
[
"",
", "
],
[
"v",
"S₁"
],
[
"",
", "
],
[
"v",
"E"
],
[
"",
" ⊢ "
],
[
"v",
"e₂"
],
[
"",
" : Int("
],
[
"v",
"n"
],
[
"",
"), "
],
[
"v",
"S₂"
]
],
"asks": "one"
},
{
"pieces": [
[
"v",
"n"
],
[
"",
" = 0"
]
]
}
],
"conclusion": [
[
"v",
"so"
],
[
"",
", "
],
[
"v",
"S"
],
[
"",
", "
],
[
"v",
"E"
],
[
"",
" ⊢ "
],
[
"v",
"e₁"
],
[
"",
" "
],
[
"p",
"/"
],
[
"",
" "
],
[
"v",
"e₂"
],
[
"",
" : error “Division by zero”, "
],
[
"v",
"S₂"
]
],
"file": "crates/cool_meaning/specs/Evaluation.antt",
"line": 221,
"source": "eval p calls self env (trees.Arith at op a b) = rule (do\n  v ← eval p calls self env a\n  w ← eval p calls self env b\n  m ← as_number v\n  n ← as_number w\n  arithmetic op at m n)",
"error": true
},
{
"kind": "rule",
"name": "Div",
"premises": [
{
"pieces": [
[
"v",
"so"
],
[
"",
", "
],
[
"v",
"S"
],
[
"",
", "
],
[
"v",
"E"
],
[
"",
" ⊢ "
],
[
"v",
"e₁"
],
[
"",
" : Int("
],
[
"v",
"m"
],
[
"",
"), "
],
[
"v",
"S₁"
]
],
"asks": "one"
},
{
"pieces": [
[
"v",
"so"
],
[
"",
", "
],
[
"v",
"S₁"
],
[
"",
", "
],
[
"v",
"E"
],
[
"",
" ⊢ "
],
[
"v",
"e₂"
],
[
"",
" : Int("
],
[
"v",
"n"
],
[
"",
"), "
],
[
"v",
"S₂"
]
],
"asks": "one"
},
{
"pieces": [
[
"v",
"n"
],
[
"",
" ≠ 0"
]
]
},
{
"pieces": [
[
"",
"−2³¹ ≤ "
],
[
"v",
"m"
],
[
"",
" ÷ "
],
[
"v",
"n"
],
[
"",
" < 2³¹"
]
]
}
],
"conclusion": [
[
"v",
"so"
],
[
"",
", "
],
[
"v",
"S"
],
[
"",
", "
],
[
"v",
"E"
],
[
"",
" ⊢ "
],
[
"v",
"e₁"
],
[
"",
" "
],
[
"p",
"/"
],
[
"",
" "
],
[
"v",
"e₂"
],
[
"",
" : Int("
],
[
"v",
"m"
],
[
"",
" ÷ "
],
[
"v",
"n"
],
[
"",
"), "
],
[
"v",
"S₂"
]
],
"file": "crates/cool_meaning/specs/Evaluation.antt",
"line": 221,
"source": "eval p calls self env (trees.Arith at op a b) = rule (do\n  v ← eval p calls self env a\n  w ← eval p calls self env b\n  m ← as_number v\n  n ← as_number w\n  arithmetic op at m n)",
"error": false
},
{
"kind": "rule",
"name": "Div-Overflow",
"premises": [
{
"pieces": [
[
"v",
"so"
],
[
"",
", "
],
[
"v",
"S"
],
[
"",
", "
],
[
"v",
"E"
],
[
"",
" ⊢ "
],
[
"v",
"e₁"
],
[
"",
" : Int("
],
[
"v",
"m"
],
[
"",
"), "
],
[
"v",
"S₁"
]
],
"asks": "one"
},
{
"pieces": [
[
"v",
"so"
],
[
"",
", "
],
[
"v",
"S₁"
],
[
"",
", "
],
[
"v",
"E"
],
[
"",
" ⊢ "
],
[
"v",
"e₂"
],
[
"",
" : Int("
],
[
"v",
"n"
],
[
"",
"), "
],
[
"v",
"S₂"
]
],
"asks": "one"
},
{
"pieces": [
[
"v",
"n"
],
[
"",
" ≠ 0"
]
]
},
{
"pieces": [
[
"",
"not −2³¹ ≤ "
],
[
"v",
"m"
],
[
"",
" ÷ "
],
[
"v",
"n"
],
[
"",
" < 2³¹"
]
]
}
],
"conclusion": [
[
"v",
"so"
],
[
"",
", "
],
[
"v",
"S"
],
[
"",
", "
],
[
"v",
"E"
],
[
"",
" ⊢ "
],
[
"v",
"e₁"
],
[
"",
" "
],
[
"p",
"/"
],
[
"",
" "
],
[
"v",
"e₂"
],
[
"",
" : error “Arithmetic overflow”, "
],
[
"v",
"S₂"
]
],
"file": "crates/cool_meaning/specs/Evaluation.antt",
"line": 221,
"source": "eval p calls self env (trees.Arith at op a b) = rule (do\n  v ← eval p calls self env a\n  w ← eval p calls self env b\n  m ← as_number v\n  n ← as_number w\n  arithmetic op at m n)",
"error": true
}
],
"program": "class Main inherits IO {\n  main() : Object {\n    out_int((7 - 2 * 5) / 2)\n  };\n};\n",
"prints": "-1",
"faults": [
{
"kind": "E14",
"words": "operand is not Int",
"mend": "use `+` and `<` only with numbers; for strings, use `concat` and `=`",
"case": "check-E14-smallest",
"files": [
{
"name": "p.cl",
"text": "class Main { a : Int; m(x : Int) : SELF_TYPE { self }; main() : Object { a + true }; };\n"
}
],
"says": "p.cl:1: E14: operand is not Int"
}
]
},
{
"kind": "form",
"forms": [
"<",
"<=",
"="
],
"heading": "Comparison",
"section": "7.12",
"types": "`<` and `<=` compare Ints. `=` compares an Int, Bool or String only with its own type, and other objects with one another.",
"does": "Ints, Bools and Strings are equal by value, other objects if they are the same object.",
"typing": [
{
"kind": "rule",
"name": "Less",
"premises": [
{
"pieces": [
[
"v",
"O"
],
[
"",
", "
],
[
"v",
"M"
],
[
"",
", "
],
[
"v",
"C"
],
[
"",
" ⊢ "
],
[
"v",
"e₁"
],
[
"",
" : "
],
[
"p",
"Int"
]
],
"faults": [
"E14"
]
},
{
"pieces": [
[
"v",
"O"
],
[
"",
", "
],
[
"v",
"M"
],
[
"",
", "
],
[
"v",
"C"
],
[
"",
" ⊢ "
],
[
"v",
"e₂"
],
[
"",
" : "
],
[
"p",
"Int"
]
],
"faults": [
"E14"
]
}
],
"conclusion": [
[
"v",
"O"
],
[
"",
", "
],
[
"v",
"M"
],
[
"",
", "
],
[
"v",
"C"
],
[
"",
" ⊢ "
],
[
"v",
"e₁"
],
[
"",
" "
],
[
"p",
"<"
],
[
"",
" "
],
[
"v",
"e₂"
],
[
"",
" : "
],
[
"p",
"Bool"
]
],
"file": "crates/cool_rules/specs/Typing.antt",
"line": 126,
"source": "HasType p c scope (trees.Compare at op a b) type =\n    (t : Ty) × (u : Ty) × HasType p c scope a t × HasType p c scope b u × AreComparable op t u × (type ≡ bool_type)",
"error": false
},
{
"kind": "rule",
"name": "LessEqual",
"premises": [
{
"pieces": [
[
"v",
"O"
],
[
"",
", "
],
[
"v",
"M"
],
[
"",
", "
],
[
"v",
"C"
],
[
"",
" ⊢ "
],
[
"v",
"e₁"
],
[
"",
" : "
],
[
"p",
"Int"
]
],
"faults": [
"E14"
]
},
{
"pieces": [
[
"v",
"O"
],
[
"",
", "
],
[
"v",
"M"
],
[
"",
", "
],
[
"v",
"C"
],
[
"",
" ⊢ "
],
[
"v",
"e₂"
],
[
"",
" : "
],
[
"p",
"Int"
]
],
"faults": [
"E14"
]
}
],
"conclusion": [
[
"v",
"O"
],
[
"",
", "
],
[
"v",
"M"
],
[
"",
", "
],
[
"v",
"C"
],
[
"",
" ⊢ "
],
[
"v",
"e₁"
],
[
"",
" "
],
[
"p",
"<="
],
[
"",
" "
],
[
"v",
"e₂"
],
[
"",
" : "
],
[
"p",
"Bool"
]
],
"file": "crates/cool_rules/specs/Typing.antt",
"line": 126,
"source": "HasType p c scope (trees.Compare at op a b) type =\n    (t : Ty) × (u : Ty) × HasType p c scope a t × HasType p c scope b u × AreComparable op t u × (type ≡ bool_type)",
"error": false
},
{
"kind": "rule",
"name": "Equal",
"premises": [
{
"pieces": [
[
"v",
"O"
],
[
"",
", "
],
[
"v",
"M"
],
[
"",
", "
],
[
"v",
"C"
],
[
"",
" ⊢ "
],
[
"v",
"e₁"
],
[
"",
" : "
],
[
"v",
"T"
]
],
"faults": [
"E15"
]
},
{
"pieces": [
[
"v",
"O"
],
[
"",
", "
],
[
"v",
"M"
],
[
"",
", "
],
[
"v",
"C"
],
[
"",
" ⊢ "
],
[
"v",
"e₂"
],
[
"",
" : "
],
[
"v",
"T"
]
],
"faults": [
"E15"
]
}
],
"conclusion": [
[
"v",
"O"
],
[
"",
", "
],
[
"v",
"M"
],
[
"",
", "
],
[
"v",
"C"
],
[
"",
" ⊢ "
],
[
"v",
"e₁"
],
[
"",
" "
],
[
"p",
"="
],
[
"",
" "
],
[
"v",
"e₂"
],
[
"",
" : "
],
[
"p",
"Bool"
]
],
"file": "crates/cool_rules/specs/Typing.antt",
"line": 126,
"source": "HasType p c scope (trees.Compare at op a b) type =\n    (t : Ty) × (u : Ty) × HasType p c scope a t × HasType p c scope b u × AreComparable op t u × (type ≡ bool_type)",
"error": false
},
{
"kind": "rule",
"name": "Equal-Objects",
"premises": [
{
"pieces": [
[
"v",
"O"
],
[
"",
", "
],
[
"v",
"M"
],
[
"",
", "
],
[
"v",
"C"
],
[
"",
" ⊢ "
],
[
"v",
"e₁"
],
[
"",
" : "
],
[
"v",
"T₁"
]
]
},
{
"pieces": [
[
"v",
"O"
],
[
"",
", "
],
[
"v",
"M"
],
[
"",
", "
],
[
"v",
"C"
],
[
"",
" ⊢ "
],
[
"v",
"e₂"
],
[
"",
" : "
],
[
"v",
"T₂"
]
]
},
{
"pieces": [
[
"v",
"T₁"
],
[
"",
" ∉ {"
],
[
"p",
"Int"
],
[
"",
", "
],
[
"p",
"Bool"
],
[
"",
", "
],
[
"p",
"String"
],
[
"",
"}"
]
],
"faults": [
"E15"
]
},
{
"pieces": [
[
"v",
"T₂"
],
[
"",
" ∉ {"
],
[
"p",
"Int"
],
[
"",
", "
],
[
"p",
"Bool"
],
[
"",
", "
],
[
"p",
"String"
],
[
"",
"}"
]
],
"faults": [
"E15"
]
}
],
"conclusion": [
[
"v",
"O"
],
[
"",
", "
],
[
"v",
"M"
],
[
"",
", "
],
[
"v",
"C"
],
[
"",
" ⊢ "
],
[
"v",
"e₁"
],
[
"",
" "
],
[
"p",
"="
],
[
"",
" "
],
[
"v",
"e₂"
],
[
"",
" : "
],
[
"p",
"Bool"
]
],
"file": "crates/cool_rules/specs/Typing.antt",
"line": 126,
"source": "HasType p c scope (trees.Compare at op a b) type =\n    (t : Ty) × (u : Ty) × HasType p c scope a t × HasType p c scope b u × AreComparable op t u × (type ≡ bool_type)",
"error": false
}
],
"running": [
{
"kind": "rule",
"name": "Less",
"premises": [
{
"pieces": [
[
"v",
"so"
],
[
"",
", "
],
[
"v",
"S"
],
[
"",
", "
],
[
"v",
"E"
],
[
"",
" ⊢ "
],
[
"v",
"e₁"
],
[
"",
" : Int("
],
[
"v",
"m"
],
[
"",
"), "
],
[
"v",
"S₁"
]
],
"asks": "one"
},
{
"pieces": [
[
"v",
"so"
],
[
"",
", "
],
[
"v",
"S₁"
],
[
"",
", "
],
[
"v",
"E"
],
[
"",
" ⊢ "
],
[
"v",
"e₂"
],
[
"",
" : Int("
],
[
"v",
"n"
],
[
"",
"), "
],
[
"v",
"S₂"
]
],
"asks": "one"
}
],
"conclusion": [
[
"v",
"so"
],
[
"",
", "
],
[
"v",
"S"
],
[
"",
", "
],
[
"v",
"E"
],
[
"",
" ⊢ "
],
[
"v",
"e₁"
],
[
"",
" "
],
[
"p",
"<"
],
[
"",
" "
],
[
"v",
"e₂"
],
[
"",
" : Bool("
],
[
"v",
"m"
],
[
"",
" < "
],
[
"v",
"n"
],
[
"",
"), "
],
[
"v",
"S₂"
]
],
"file": "crates/cool_meaning/specs/Evaluation.antt",
"line": 227,
"source": "eval p calls self env (trees.Compare at op a b) = rule (do\n  v ← eval p calls self env a\n  w ← eval p calls self env b\n  compare op v w)",
"error": false
},
{
"kind": "rule",
"name": "LessEqual",
"premises": [
{
"pieces": [
[
"v",
"so"
],
[
"",
", "
],
[
"v",
"S"
],
[
"",
", "
],
[
"v",
"E"
],
[
"",
" ⊢ "
],
[
"v",
"e₁"
],
[
"",
" : Int("
],
[
"v",
"m"
],
[
"",
"), "
],
[
"v",
"S₁"
]
],
"asks": "one"
},
{
"pieces": [
[
"v",
"so"
],
[
"",
", "
],
[
"v",
"S₁"
],
[
"",
", "
],
[
"v",
"E"
],
[
"",
" ⊢ "
],
[
"v",
"e₂"
],
[
"",
" : Int("
],
[
"v",
"n"
],
[
"",
"), "
],
[
"v",
"S₂"
]
],
"asks": "one"
}
],
"conclusion": [
[
"v",
"so"
],
[
"",
", "
],
[
"v",
"S"
],
[
"",
", "
],
[
"v",
"E"
],
[
"",
" ⊢ "
],
[
"v",
"e₁"
],
[
"",
" "
],
[
"p",
"<="
],
[
"",
" "
],
[
"v",
"e₂"
],
[
"",
" : Bool("
],
[
"v",
"m"
],
[
"",
" ≤ "
],
[
"v",
"n"
],
[
"",
"), "
],
[
"v",
"S₂"
]
],
"file": "crates/cool_meaning/specs/Evaluation.antt",
"line": 227,
"source": "eval p calls self env (trees.Compare at op a b) = rule (do\n  v ← eval p calls self env a\n  w ← eval p calls self env b\n  compare op v w)",
"error": false
},
{
"kind": "rule",
"name": "Equal",
"premises": [
{
"pieces": [
[
"v",
"so"
],
[
"",
", "
],
[
"v",
"S"
],
[
"",
", "
],
[
"v",
"E"
],
[
"",
" ⊢ "
],
[
"v",
"e₁"
],
[
"",
" : "
],
[
"v",
"v"
],
[
"",
", "
],
[
"v",
"S₁"
]
],
"asks": "one"
},
{
"pieces": [
[
"v",
"so"
],
[
"",
", "
],
[
"v",
"S₁"
],
[
"",
", "
],
[
"v",
"E"
],
[
"",
" ⊢ "
],
[
"v",
"e₂"
],
[
"",
" : "
],
[
"v",
"w"
],
[
"",
", "
],
[
"v",
"S₂"
]
],
"asks": "one"
}
],
"conclusion": [
[
"v",
"so"
],
[
"",
", "
],
[
"v",
"S"
],
[
"",
", "
],
[
"v",
"E"
],
[
"",
" ⊢ "
],
[
"v",
"e₁"
],
[
"",
" "
],
[
"p",
"="
],
[
"",
" "
],
[
"v",
"e₂"
],
[
"",
" : Bool("
],
[
"v",
"v"
],
[
"",
" equals "
],
[
"v",
"w"
],
[
"",
"), "
],
[
"v",
"S₂"
]
],
"file": "crates/cool_meaning/specs/Evaluation.antt",
"line": 227,
"source": "eval p calls self env (trees.Compare at op a b) = rule (do\n  v ← eval p calls self env a\n  w ← eval p calls self env b\n  compare op v w)",
"error": false
}
],
"program": "class Main inherits IO {\n  main() : Object {\n    if \"a\" = \"a\".concat(\"\") then out_string(\"equal\") else out_string(\"not\") fi\n  };\n};\n",
"prints": "equal",
"faults": [
{
"kind": "E14",
"words": "operand is not Int",
"mend": "use `+` and `<` only with numbers; for strings, use `concat` and `=`",
"case": null,
"files": [
{
"name": "p.cl",
"text": "class Main { a : Int; m(x : Int) : SELF_TYPE { self }; main() : Object { 1 < true }; };\n"
}
],
"says": "p.cl:1: E14: operand is not Int"
},
{
"kind": "E15",
"words": "unequal types",
"mend": "compare Int, Bool and String only with values of their own type",
"case": "check-E15-smallest",
"files": [
{
"name": "p.cl",
"text": "class Main { a : Int; m(x : Int) : SELF_TYPE { self }; main() : Object { a = true }; };\n"
}
],
"says": "p.cl:1: E15: unequal types"
}
]
},
{
"kind": "form",
"forms": [
"~"
],
"heading": "Minus",
"section": "7.12",
"types": "The operand is an Int, and so is the result.",
"does": "The number with the opposite sign. For the least Int there is none: that is an error.",
"typing": [
{
"kind": "rule",
"name": "Neg",
"premises": [
{
"pieces": [
[
"v",
"O"
],
[
"",
", "
],
[
"v",
"M"
],
[
"",
", "
],
[
"v",
"C"
],
[
"",
" ⊢ "
],
[
"v",
"e"
],
[
"",
" : "
],
[
"p",
"Int"
]
],
"faults": [
"E14"
]
}
],
"conclusion": [
[
"v",
"O"
],
[
"",
", "
],
[
"v",
"M"
],
[
"",
", "
],
[
"v",
"C"
],
[
"",
" ⊢ "
],
[
"p",
"~"
],
[
"v",
"e"
],
[
"",
" : "
],
[
"p",
"Int"
]
],
"file": "crates/cool_rules/specs/Typing.antt",
"line": 124,
"source": "HasType p c scope (trees.Neg at e) type = HasType p c scope e int_type × (type ≡ int_type)",
"error": false
}
],
"running": [
{
"kind": "rule",
"name": "Neg",
"premises": [
{
"pieces": [
[
"v",
"so"
],
[
"",
", "
],
[
"v",
"S"
],
[
"",
", "
],
[
"v",
"E"
],
[
"",
" ⊢ "
],
[
"v",
"e"
],
[
"",
" : Int("
],
[
"v",
"n"
],
[
"",
"), "
],
[
"v",
"S₁"
]
],
"asks": "one"
},
{
"pieces": [
[
"",
"−2³¹ ≤ −"
],
[
"v",
"n"
],
[
"",
" < 2³¹"
]
]
}
],
"conclusion": [
[
"v",
"so"
],
[
"",
", "
],
[
"v",
"S"
],
[
"",
", "
],
[
"v",
"E"
],
[
"",
" ⊢ "
],
[
"p",
"~"
],
[
"v",
"e"
],
[
"",
" : Int(−"
],
[
"v",
"n"
],
[
"",
"), "
],
[
"v",
"S₁"
]
],
"file": "crates/cool_meaning/specs/Evaluation.antt",
"line": 217,
"source": "eval p calls self env (trees.Neg at t) = rule (do\n  v ← eval p calls self env t\n  n ← as_number v\n  exact at (neg_ℤ n))",
"error": false
},
{
"kind": "rule",
"name": "Neg-Overflow",
"premises": [
{
"pieces": [
[
"v",
"so"
],
[
"",
", "
],
[
"v",
"S"
],
[
"",
", "
],
[
"v",
"E"
],
[
"",
" ⊢ "
],
[
"v",
"e"
],
[
"",
" : Int("
],
[
"v",
"n"
],
[
"",
"), "
],
[
"v",
"S₁"
]
],
"asks": "one"
},
{
"pieces": [
[
"",
"not −2³¹ ≤ −"
],
[
"v",
"n"
],
[
"",
" < 2³¹"
]
]
}
],
"conclusion": [
[
"v",
"so"
],
[
"",
", "
],
[
"v",
"S"
],
[
"",
", "
],
[
"v",
"E"
],
[
"",
" ⊢ "
],
[
"p",
"~"
],
[
"v",
"e"
],
[
"",
" : error “Arithmetic overflow”, "
],
[
"v",
"S₁"
]
],
"file": "crates/cool_meaning/specs/Evaluation.antt",
"line": 217,
"source": "eval p calls self env (trees.Neg at t) = rule (do\n  v ← eval p calls self env t\n  n ← as_number v\n  exact at (neg_ℤ n))",
"error": true
}
],
"program": "class Main inherits IO {\n  main() : Object {\n    out_int(~5 + 2)\n  };\n};\n",
"prints": "-3",
"faults": [
{
"kind": "E14",
"words": "operand is not Int",
"mend": "use `+` and `<` only with numbers; for strings, use `concat` and `=`",
"case": null,
"files": [
{
"name": "p.cl",
"text": "class Main { a : Int; m(x : Int) : SELF_TYPE { self }; main() : Object { ~true }; };\n"
}
],
"says": "p.cl:1: E14: operand is not Int"
}
]
},
{
"kind": "form",
"forms": [
"not"
],
"heading": "Not",
"section": "7.12",
"types": "The operand is a Bool, and so is the result.",
"does": "True for false, and false for true.",
"typing": [
{
"kind": "rule",
"name": "Not",
"premises": [
{
"pieces": [
[
"v",
"O"
],
[
"",
", "
],
[
"v",
"M"
],
[
"",
", "
],
[
"v",
"C"
],
[
"",
" ⊢ "
],
[
"v",
"e"
],
[
"",
" : "
],
[
"p",
"Bool"
]
],
"faults": [
"E16"
]
}
],
"conclusion": [
[
"v",
"O"
],
[
"",
", "
],
[
"v",
"M"
],
[
"",
", "
],
[
"v",
"C"
],
[
"",
" ⊢ "
],
[
"p",
"not"
],
[
"",
" "
],
[
"v",
"e"
],
[
"",
" : "
],
[
"p",
"Bool"
]
],
"file": "crates/cool_rules/specs/Typing.antt",
"line": 123,
"source": "HasType p c scope (trees.Not at e) type = HasType p c scope e bool_type × (type ≡ bool_type)",
"error": false
}
],
"running": [
{
"kind": "rule",
"name": "Not",
"premises": [
{
"pieces": [
[
"v",
"so"
],
[
"",
", "
],
[
"v",
"S"
],
[
"",
", "
],
[
"v",
"E"
],
[
"",
" ⊢ "
],
[
"v",
"e"
],
[
"",
" : Bool("
],
[
"v",
"b"
],
[
"",
"), "
],
[
"v",
"S₁"
]
],
"asks": "one"
}
],
"conclusion": [
[
"v",
"so"
],
[
"",
", "
],
[
"v",
"S"
],
[
"",
", "
],
[
"v",
"E"
],
[
"",
" ⊢ "
],
[
"p",
"not"
],
[
"",
" "
],
[
"v",
"e"
],
[
"",
" : Bool(not "
],
[
"v",
"b"
],
[
"",
"), "
],
[
"v",
"S₁"
]
],
"file": "crates/cool_meaning/specs/Evaluation.antt",
"line": 213,
"source": "eval p calls self env (trees.Not at t) = rule (do\n  v ← eval p calls self env t\n  b ← as_truth v\n  give (Bool (not b)))",
"error": false
}
],
"program": "class Main inherits IO {\n  main() : Object {\n    if not 1 < 1 then out_string(\"no\") else out_string(\"yes\") fi\n  };\n};\n",
"prints": "no",
"faults": [
{
"kind": "E16",
"words": "operand is not Bool",
"mend": "compare first, for example `not x = 0`",
"case": "check-E16-smallest",
"files": [
{
"name": "p.cl",
"text": "class Main { a : Int; m(x : Int) : SELF_TYPE { self }; main() : Object { not a }; };\n"
}
],
"says": "p.cl:1: E16: operand is not Bool"
}
]
}
]
},
{
"id": "parts",
"number": "12, 13",
"heading": "Several expressions",
"words": "Arguments, items of blocks, branches, and initial values of attributes, one after the other.",
"entries": [
{
"kind": "rule",
"name": "Types of arguments",
"premises": [],
"conclusion": [
[
"v",
"O"
],
[
"",
", "
],
[
"v",
"M"
],
[
"",
", "
],
[
"v",
"C"
],
[
"",
" ⊢ nothing : nothing"
]
],
"file": "crates/cool_rules/specs/Typing.antt",
"line": 131,
"source": "HaveTypes p c scope Last [] = Unit {0}",
"error": false
},
{
"kind": "rule",
"name": "Types of arguments",
"premises": [
{
"pieces": [
[
"v",
"O"
],
[
"",
", "
],
[
"v",
"M"
],
[
"",
", "
],
[
"v",
"C"
],
[
"",
" ⊢ "
],
[
"v",
"e₀"
],
[
"",
" : "
],
[
"v",
"T₀"
]
]
},
{
"pieces": [
[
"v",
"O"
],
[
"",
", "
],
[
"v",
"M"
],
[
"",
", "
],
[
"v",
"C"
],
[
"",
" ⊢ "
],
[
"v",
"e₁, …, eₙ"
],
[
"",
" : "
],
[
"v",
"T₁, …, Tₙ"
]
]
}
],
"conclusion": [
[
"v",
"O"
],
[
"",
", "
],
[
"v",
"M"
],
[
"",
", "
],
[
"v",
"C"
],
[
"",
" ⊢ "
],
[
"v",
"e₀"
],
[
"p",
";"
],
[
"",
" "
],
[
"v",
"e₁, …, eₙ"
],
[
"",
" : "
],
[
"v",
"T₀"
],
[
"",
", "
],
[
"v",
"T₁, …, Tₙ"
]
],
"file": "crates/cool_rules/specs/Typing.antt",
"line": 134,
"source": "HaveTypes p c scope (More e es) (t ∷ ts) = HasType p c scope e t × HaveTypes p c scope es ts",
"error": false
},
{
"kind": "rule",
"name": "Type of items",
"premises": [],
"conclusion": [
[
"v",
"O"
],
[
"",
", "
],
[
"v",
"M"
],
[
"",
", "
],
[
"v",
"C"
],
[
"",
" ⊢ nothing : "
],
[
"v",
"T"
],
[
"",
" after "
],
[
"v",
"T"
]
],
"file": "crates/cool_rules/specs/Typing.antt",
"line": 138,
"source": "HaveItems p c scope before Last type = type ≡ before",
"error": false
},
{
"kind": "rule",
"name": "Type of items",
"premises": [
{
"pieces": [
[
"v",
"O"
],
[
"",
", "
],
[
"v",
"M"
],
[
"",
", "
],
[
"v",
"C"
],
[
"",
" ⊢ "
],
[
"v",
"e₀"
],
[
"",
" : "
],
[
"v",
"T₁"
]
]
},
{
"pieces": [
[
"v",
"O"
],
[
"",
", "
],
[
"v",
"M"
],
[
"",
", "
],
[
"v",
"C"
],
[
"",
" ⊢ "
],
[
"v",
"e₁, …, eₙ"
],
[
"",
" : "
],
[
"v",
"T"
],
[
"",
" after "
],
[
"v",
"T₁"
]
]
}
],
"conclusion": [
[
"v",
"O"
],
[
"",
", "
],
[
"v",
"M"
],
[
"",
", "
],
[
"v",
"C"
],
[
"",
" ⊢ "
],
[
"v",
"e₀"
],
[
"p",
";"
],
[
"",
" "
],
[
"v",
"e₁, …, eₙ"
],
[
"",
" : "
],
[
"v",
"T"
],
[
"",
" after "
],
[
"v",
"T₂"
]
],
"file": "crates/cool_rules/specs/Typing.antt",
"line": 139,
"source": "HaveItems p c scope before (More e es) type = (t : Ty) × HasType p c scope e t × HaveItems p c scope t es type",
"error": false
},
{
"kind": "rule",
"name": "Types of branches",
"premises": [],
"conclusion": [
[
"v",
"O"
],
[
"",
", "
],
[
"v",
"M"
],
[
"",
", "
],
[
"v",
"C"
],
[
"",
" ⊢ nothing : nothing"
]
],
"file": "crates/cool_rules/specs/Typing.antt",
"line": 148,
"source": "HaveBranches p c scope NoCase [] = Unit {0}",
"error": false
},
{
"kind": "rule",
"name": "Types of branches",
"premises": [
{
"pieces": [
[
"v",
"x"
],
[
"",
" ≠ "
],
[
"p",
"self"
]
],
"faults": [
"E10"
]
},
{
"pieces": [
[
"",
"type("
],
[
"v",
"D"
],
[
"",
") = "
],
[
"v",
"D′"
]
],
"faults": [
"E11",
"E12"
]
},
{
"pieces": [
[
"v",
"O"
],
[
"",
"["
],
[
"v",
"D′"
],
[
"",
"/"
],
[
"v",
"x"
],
[
"",
"], "
],
[
"v",
"M"
],
[
"",
", "
],
[
"v",
"C"
],
[
"",
" ⊢ "
],
[
"v",
"e"
],
[
"",
" : "
],
[
"v",
"T₀"
]
]
},
{
"pieces": [
[
"v",
"O"
],
[
"",
", "
],
[
"v",
"M"
],
[
"",
", "
],
[
"v",
"C"
],
[
"",
" ⊢ "
],
[
"v",
"b₁, …, bₙ"
],
[
"",
" : "
],
[
"v",
"T₁, …, Tₙ"
]
]
}
],
"conclusion": [
[
"v",
"O"
],
[
"",
", "
],
[
"v",
"M"
],
[
"",
", "
],
[
"v",
"C"
],
[
"",
" ⊢ "
],
[
"v",
"x"
],
[
"",
" "
],
[
"p",
":"
],
[
"",
" "
],
[
"v",
"D"
],
[
"",
" "
],
[
"p",
"=>"
],
[
"",
" "
],
[
"v",
"e"
],
[
"p",
";"
],
[
"",
" "
],
[
"v",
"b₁, …, bₙ"
],
[
"",
" : "
],
[
"v",
"T₀"
],
[
"",
", "
],
[
"v",
"T₁, …, Tₙ"
]
],
"file": "crates/cool_rules/specs/Typing.antt",
"line": 151,
"source": "HaveBranches p c scope (CaseOf at name declared e cs) (t ∷ ts) =\n    ((d : ClassId) × IsNotSelf name × Denotes p declared.name (IsClass d) × HasType p c (with_name name (IsClass d) scope) e t) × HaveBranches p c scope cs ts",
"error": false
},
{
"kind": "rule",
"name": "Last",
"premises": [],
"conclusion": [
[
"v",
"so"
],
[
"",
", "
],
[
"v",
"S"
],
[
"",
", "
],
[
"v",
"E"
],
[
"",
" ⊢ nothing : nothing, "
],
[
"v",
"S"
]
],
"file": "crates/cool_meaning/specs/Evaluation.antt",
"line": 234,
"source": "eval_all p calls self env Last = give []",
"error": false
},
{
"kind": "rule",
"name": "More",
"premises": [
{
"pieces": [
[
"v",
"so"
],
[
"",
", "
],
[
"v",
"S"
],
[
"",
", "
],
[
"v",
"E"
],
[
"",
" ⊢ "
],
[
"v",
"e₀"
],
[
"",
" : "
],
[
"v",
"v₀"
],
[
"",
", "
],
[
"v",
"S₁"
]
],
"asks": "one"
},
{
"pieces": [
[
"v",
"so"
],
[
"",
", "
],
[
"v",
"S₁"
],
[
"",
", "
],
[
"v",
"E"
],
[
"",
" ⊢ "
],
[
"v",
"e₁, …, eₙ"
],
[
"",
" : "
],
[
"v",
"v₁, …, vₙ"
],
[
"",
", "
],
[
"v",
"S₂"
]
],
"asks": "several"
}
],
"conclusion": [
[
"v",
"so"
],
[
"",
", "
],
[
"v",
"S"
],
[
"",
", "
],
[
"v",
"E"
],
[
"",
" ⊢ "
],
[
"v",
"e₀"
],
[
"p",
";"
],
[
"",
" "
],
[
"v",
"e₁, …, eₙ"
],
[
"",
" : "
],
[
"v",
"v₀"
],
[
"",
", "
],
[
"v",
"v₁, …, vₙ"
],
[
"",
", "
],
[
"v",
"S₂"
]
],
"file": "crates/cool_meaning/specs/Evaluation.antt",
"line": 235,
"source": "eval_all p calls self env (More t ts) = do\n  v ← eval p calls self env t\n  holding 1 (do\n    vs ← eval_all p calls self env ts\n    give (v ∷ vs))",
"error": false
},
{
"kind": "rule",
"name": "Last",
"premises": [],
"conclusion": [
[
"v",
"so"
],
[
"",
", "
],
[
"v",
"S"
],
[
"",
", "
],
[
"v",
"E"
],
[
"",
" ⊢ nothing : "
],
[
"v",
"v"
],
[
"",
", "
],
[
"v",
"S"
],
[
"",
" after "
],
[
"v",
"v"
]
],
"file": "crates/cool_meaning/specs/Evaluation.antt",
"line": 243,
"source": "eval_items p calls self env v Last = give v",
"error": false
},
{
"kind": "rule",
"name": "More",
"premises": [
{
"pieces": [
[
"v",
"so"
],
[
"",
", "
],
[
"v",
"S"
],
[
"",
", "
],
[
"v",
"E"
],
[
"",
" ⊢ "
],
[
"v",
"e₀"
],
[
"",
" : "
],
[
"v",
"w"
],
[
"",
", "
],
[
"v",
"S₁"
]
],
"asks": "one"
},
{
"pieces": [
[
"v",
"so"
],
[
"",
", "
],
[
"v",
"S₁"
],
[
"",
", "
],
[
"v",
"E"
],
[
"",
" ⊢ "
],
[
"v",
"e₁, …, eₙ"
],
[
"",
" : "
],
[
"v",
"v₁"
],
[
"",
", "
],
[
"v",
"S₂"
],
[
"",
" after "
],
[
"v",
"w"
]
],
"asks": "several"
}
],
"conclusion": [
[
"v",
"so"
],
[
"",
", "
],
[
"v",
"S"
],
[
"",
", "
],
[
"v",
"E"
],
[
"",
" ⊢ "
],
[
"v",
"e₀"
],
[
"p",
";"
],
[
"",
" "
],
[
"v",
"e₁, …, eₙ"
],
[
"",
" : "
],
[
"v",
"v₁"
],
[
"",
", "
],
[
"v",
"S₂"
],
[
"",
" after "
],
[
"v",
"v₂"
]
],
"file": "crates/cool_meaning/specs/Evaluation.antt",
"line": 244,
"source": "eval_items p calls self env v (More t ts) = do\n  w ← eval p calls self env t\n  eval_items p calls self env w ts",
"error": false
},
{
"kind": "rule",
"name": "run initials",
"premises": [],
"conclusion": [
[
"v",
"so"
],
[
"",
", "
],
[
"v",
"S"
],
[
"",
" ⊢ initial values of nothing at "
],
[
"v",
"l₁, …, lₙ"
],
[
"",
" : "
],
[
"v",
"so"
],
[
"",
", "
],
[
"v",
"S"
]
],
"file": "crates/cool_meaning/specs/Evaluation.antt",
"line": 280,
"source": "run_initials p calls self [] ls = give self",
"error": false
},
{
"kind": "rule",
"name": "run initials",
"premises": [
{
"pieces": [
[
"",
"there is no init("
],
[
"v",
"a"
],
[
"",
")"
]
]
},
{
"pieces": [
[
"v",
"so"
],
[
"",
", "
],
[
"v",
"S"
],
[
"",
" ⊢ initial values of "
],
[
"v",
"r₁, …, rₙ"
],
[
"",
" at "
],
[
"v",
"l₁, …, lₙ"
],
[
"",
" : "
],
[
"v",
"v"
],
[
"",
", "
],
[
"v",
"S₁"
]
]
}
],
"conclusion": [
[
"v",
"so"
],
[
"",
", "
],
[
"v",
"S"
],
[
"",
" ⊢ initial values of "
],
[
"v",
"a"
],
[
"",
", "
],
[
"v",
"r₁, …, rₙ"
],
[
"",
" at "
],
[
"v",
"l₀"
],
[
"",
", "
],
[
"v",
"l₁, …, lₙ"
],
[
"",
" : "
],
[
"v",
"v"
],
[
"",
", "
],
[
"v",
"S₁"
]
],
"file": "crates/cool_meaning/specs/Evaluation.antt",
"line": 282,
"source": "run_initials p calls self (a ∷ rs) (l ∷ ls) = run_initial p calls self l (init_of p a) >> run_initials p calls self rs ls",
"error": false
},
{
"kind": "rule",
"name": "run initials",
"premises": [
{
"pieces": [
[
"",
"init("
],
[
"v",
"a"
],
[
"",
") = "
],
[
"v",
"e"
]
]
},
{
"pieces": [
[
"v",
"so"
],
[
"",
", "
],
[
"v",
"S"
],
[
"",
", attributes("
],
[
"v",
"so"
],
[
"",
") ⊢ "
],
[
"v",
"e"
],
[
"",
" : "
],
[
"v",
"v₁"
],
[
"",
", "
],
[
"v",
"S₁"
]
],
"asks": "one"
},
{
"pieces": [
[
"v",
"S₂"
],
[
"",
" = "
],
[
"v",
"S₁"
],
[
"",
"["
],
[
"v",
"v₁"
],
[
"",
"/"
],
[
"v",
"l₀"
],
[
"",
"]"
]
]
},
{
"pieces": [
[
"v",
"so"
],
[
"",
", "
],
[
"v",
"S₂"
],
[
"",
" ⊢ initial values of "
],
[
"v",
"r₁, …, rₙ"
],
[
"",
" at "
],
[
"v",
"l₁, …, lₙ"
],
[
"",
" : "
],
[
"v",
"v₂"
],
[
"",
", "
],
[
"v",
"S₃"
]
]
}
],
"conclusion": [
[
"v",
"so"
],
[
"",
", "
],
[
"v",
"S"
],
[
"",
" ⊢ initial values of "
],
[
"v",
"a"
],
[
"",
", "
],
[
"v",
"r₁, …, rₙ"
],
[
"",
" at "
],
[
"v",
"l₀"
],
[
"",
", "
],
[
"v",
"l₁, …, lₙ"
],
[
"",
" : "
],
[
"v",
"v₂"
],
[
"",
", "
],
[
"v",
"S₃"
]
],
"file": "crates/cool_meaning/specs/Evaluation.antt",
"line": 282,
"source": "run_initials p calls self (a ∷ rs) (l ∷ ls) = run_initial p calls self l (init_of p a) >> run_initials p calls self rs ls",
"error": false
}
]
},
{
"id": "basic",
"number": "8",
"heading": "Basic classes",
"words": "The methods that each program has from the first.",
"entries": [
{
"kind": "method",
"owner": "Object",
"name": "abort",
"formals": [],
"result": "Object",
"words": "Ends the program, and writes the class of the object.",
"running": [
{
"kind": "rule",
"name": "basic-Aborted",
"premises": [
{
"pieces": [
[
"",
"class("
],
[
"v",
"v₀"
],
[
"",
") = "
],
[
"v",
"C"
]
]
}
],
"conclusion": [
[
"v",
"S"
],
[
"",
" ⊢ "
],
[
"v",
"v₀"
],
[
"",
"."
],
[
"p",
"abort"
],
[
"",
"("
],
[
"v",
"v₁, …, vₙ"
],
[
"",
") : error “Abort called from class …”, "
],
[
"v",
"S"
]
],
"file": "crates/cool_meaning/specs/BasicMethods.antt",
"line": 123,
"source": "basic p Abort at v vs = do\n  c ← given (class_of v)\n  stop (Aborted c)",
"error": true
}
],
"program": "class Main inherits IO {\n  main() : Object {\n    abort()\n  };\n};\n",
"prints": null
},
{
"kind": "method",
"owner": "Object",
"name": "type_name",
"formals": [],
"result": "String",
"words": "The name of the object's class, as a String.",
"running": [
{
"kind": "rule",
"name": "basic",
"premises": [
{
"pieces": [
[
"",
"class("
],
[
"v",
"v₀"
],
[
"",
") = "
],
[
"v",
"C"
]
]
}
],
"conclusion": [
[
"v",
"S"
],
[
"",
" ⊢ "
],
[
"v",
"v₀"
],
[
"",
"."
],
[
"p",
"type_name"
],
[
"",
"("
],
[
"v",
"v₁, …, vₙ"
],
[
"",
") : String(name("
],
[
"v",
"C"
],
[
"",
")), "
],
[
"v",
"S"
]
],
"file": "crates/cool_meaning/specs/BasicMethods.antt",
"line": 126,
"source": "basic p TypeName at v vs = do\n  c ← given (class_of v)\n  give (Str (name_of p c))",
"error": false
}
],
"program": "class Main inherits IO {\n  main() : Object {\n    out_string((new Main).type_name())\n  };\n};\n",
"prints": "Main"
},
{
"kind": "method",
"owner": "Object",
"name": "copy",
"formals": [],
"result": "SELF_TYPE",
"words": "A new object of the same class, whose attributes have the same values. The objects that they refer to are shared.",
"running": [
{
"kind": "rule",
"name": "basic",
"premises": [],
"conclusion": [
[
"v",
"S"
],
[
"",
" ⊢ Int("
],
[
"v",
"n"
],
[
"",
")."
],
[
"p",
"copy"
],
[
"",
"("
],
[
"v",
"v₁, …, vₙ"
],
[
"",
") : Int("
],
[
"v",
"n"
],
[
"",
"), "
],
[
"v",
"S"
]
],
"file": "crates/cool_meaning/specs/BasicMethods.antt",
"line": 129,
"source": "basic p Copy at v vs = copy p v",
"error": false
},
{
"kind": "rule",
"name": "basic",
"premises": [],
"conclusion": [
[
"v",
"S"
],
[
"",
" ⊢ Bool("
],
[
"v",
"b"
],
[
"",
")."
],
[
"p",
"copy"
],
[
"",
"("
],
[
"v",
"v₁, …, vₙ"
],
[
"",
") : Bool("
],
[
"v",
"b"
],
[
"",
"), "
],
[
"v",
"S"
]
],
"file": "crates/cool_meaning/specs/BasicMethods.antt",
"line": 129,
"source": "basic p Copy at v vs = copy p v",
"error": false
},
{
"kind": "rule",
"name": "basic",
"premises": [],
"conclusion": [
[
"v",
"S"
],
[
"",
" ⊢ String("
],
[
"v",
"s"
],
[
"",
")."
],
[
"p",
"copy"
],
[
"",
"("
],
[
"v",
"v₁, …, vₙ"
],
[
"",
") : String("
],
[
"v",
"s"
],
[
"",
"), "
],
[
"v",
"S"
]
],
"file": "crates/cool_meaning/specs/BasicMethods.antt",
"line": 129,
"source": "basic p Copy at v vs = copy p v",
"error": false
},
{
"kind": "rule",
"name": "basic",
"premises": [
{
"pieces": [
[
"v",
"S"
],
[
"",
"("
],
[
"v",
"l₁, …, lₙ"
],
[
"",
") = "
],
[
"v",
"v₁, …, vₙ"
]
]
},
{
"pieces": [
[
"v",
"l₁′, …, lₙ′"
],
[
"",
" = newloc("
],
[
"v",
"S"
],
[
"",
"), "
],
[
"v",
"S₁"
],
[
"",
" = "
],
[
"v",
"S"
],
[
"",
"["
],
[
"v",
"v₁, …, vₙ"
],
[
"",
"/"
],
[
"v",
"l₁′, …, lₙ′"
],
[
"",
"]"
]
]
},
{
"pieces": [
[
"v",
"i"
],
[
"",
" is new, "
],
[
"v",
"S₂"
],
[
"",
" = "
],
[
"v",
"S₁"
],
[
"",
" with "
],
[
"v",
"i"
],
[
"",
" drawn"
]
]
}
],
"conclusion": [
[
"v",
"S"
],
[
"",
" ⊢ "
],
[
"v",
"C"
],
[
"",
"#"
],
[
"v",
"i′"
],
[
"",
"("
],
[
"v",
"l₁, …, lₙ"
],
[
"",
")."
],
[
"p",
"copy"
],
[
"",
"("
],
[
"v",
"v₁′, …, vₙ′"
],
[
"",
") : "
],
[
"v",
"C"
],
[
"",
"#"
],
[
"v",
"i"
],
[
"",
"("
],
[
"v",
"l₁′, …, lₙ′"
],
[
"",
"), "
],
[
"v",
"S₂"
]
],
"file": "crates/cool_meaning/specs/BasicMethods.antt",
"line": 129,
"source": "basic p Copy at v vs = copy p v",
"error": false
}
],
"program": "class Main inherits IO {\n  main() : Object {\n    out_int((new Main).copy().type_name().length())\n  };\n};\n",
"prints": "4"
},
{
"kind": "method",
"owner": "IO",
"name": "out_string",
"formals": [
"String"
],
"result": "SELF_TYPE",
"words": "Writes the string, and returns the receiver, so that calls may follow one another.",
"running": [
{
"kind": "rule",
"name": "basic",
"premises": [
{
"pieces": [
[
"v",
"S₁"
],
[
"",
" = "
],
[
"v",
"S"
],
[
"",
" with output "
],
[
"v",
"s"
]
]
}
],
"conclusion": [
[
"v",
"S"
],
[
"",
" ⊢ "
],
[
"v",
"v"
],
[
"",
"."
],
[
"p",
"out_string"
],
[
"",
"(String("
],
[
"v",
"s"
],
[
"",
")) : "
],
[
"v",
"v"
],
[
"",
", "
],
[
"v",
"S₁"
]
],
"file": "crates/cool_meaning/specs/BasicMethods.antt",
"line": 130,
"source": "basic p OutString at v vs = do\n  w ← one vs\n  bytes ← as_string w\n  working (length bytes) (print bytes)\n  give v",
"error": false
}
],
"program": "class Main inherits IO {\n  main() : Object {\n    out_string(\"a\").out_string(\"b\")\n  };\n};\n",
"prints": "ab"
},
{
"kind": "method",
"owner": "IO",
"name": "out_int",
"formals": [
"Int"
],
"result": "SELF_TYPE",
"words": "Writes the number in decimal.",
"running": [
{
"kind": "rule",
"name": "basic",
"premises": [
{
"pieces": [
[
"v",
"S₁"
],
[
"",
" = "
],
[
"v",
"S"
],
[
"",
" with output decimal("
],
[
"v",
"n"
],
[
"",
")"
]
]
}
],
"conclusion": [
[
"v",
"S"
],
[
"",
" ⊢ "
],
[
"v",
"v"
],
[
"",
"."
],
[
"p",
"out_int"
],
[
"",
"(Int("
],
[
"v",
"n"
],
[
"",
")) : "
],
[
"v",
"v"
],
[
"",
", "
],
[
"v",
"S₁"
]
],
"file": "crates/cool_meaning/specs/BasicMethods.antt",
"line": 135,
"source": "basic p OutInt at v vs = do\n  w ← one vs\n  n ← as_number w\n  print (signed_decimal n)\n  give v",
"error": false
}
],
"program": "class Main inherits IO {\n  main() : Object {\n    out_int(~12)\n  };\n};\n",
"prints": "-12"
},
{
"kind": "method",
"owner": "IO",
"name": "in_string",
"formals": [],
"result": "String",
"words": "Reads a line of the input, without its newline.",
"running": [
{
"kind": "rule",
"name": "basic",
"premises": [
{
"pieces": [
[
"v",
"s"
],
[
"",
" is the next line of "
],
[
"v",
"S"
],
[
"",
", "
],
[
"v",
"S₁"
],
[
"",
" = "
],
[
"v",
"S"
],
[
"",
" without it"
]
]
}
],
"conclusion": [
[
"v",
"S"
],
[
"",
" ⊢ "
],
[
"v",
"v₀"
],
[
"",
"."
],
[
"p",
"in_string"
],
[
"",
"("
],
[
"v",
"v₁, …, vₙ"
],
[
"",
") : String("
],
[
"v",
"s"
],
[
"",
"), "
],
[
"v",
"S₁"
]
],
"file": "crates/cool_meaning/specs/BasicMethods.antt",
"line": 140,
"source": "basic p InString at v vs = do\n  bytes ← take_line\n  new_string bytes",
"error": false
}
],
"program": "class Main inherits IO {\n  main() : Object {\n    out_string(in_string())\n  };\n};\n",
"prints": null
},
{
"kind": "method",
"owner": "IO",
"name": "in_int",
"formals": [],
"result": "Int",
"words": "Reads a line of the input, and returns the number at its start; 0 if there is none.",
"running": [
{
"kind": "rule",
"name": "basic",
"premises": [
{
"pieces": [
[
"v",
"s"
],
[
"",
" is the next line of "
],
[
"v",
"S"
],
[
"",
", "
],
[
"v",
"S₁"
],
[
"",
" = "
],
[
"v",
"S"
],
[
"",
" without it"
]
]
}
],
"conclusion": [
[
"v",
"S"
],
[
"",
" ⊢ "
],
[
"v",
"v₀"
],
[
"",
"."
],
[
"p",
"in_int"
],
[
"",
"("
],
[
"v",
"v₁, …, vₙ"
],
[
"",
") : Int(number("
],
[
"v",
"s"
],
[
"",
")), "
],
[
"v",
"S₁"
]
],
"file": "crates/cool_meaning/specs/BasicMethods.antt",
"line": 143,
"source": "basic p InInt at v vs = do\n  bytes ← take_line\n  new_number (number_of bytes)",
"error": false
}
],
"program": "class Main inherits IO {\n  main() : Object {\n    out_int(in_int())\n  };\n};\n",
"prints": null
},
{
"kind": "method",
"owner": "String",
"name": "length",
"formals": [],
"result": "Int",
"words": "The number of bytes of the string.",
"running": [
{
"kind": "rule",
"name": "basic",
"premises": [],
"conclusion": [
[
"v",
"S"
],
[
"",
" ⊢ String("
],
[
"v",
"s"
],
[
"",
")."
],
[
"p",
"length"
],
[
"",
"("
],
[
"v",
"v₁, …, vₙ"
],
[
"",
") : Int(signed(length("
],
[
"v",
"s"
],
[
"",
"))), "
],
[
"v",
"S"
]
],
"file": "crates/cool_meaning/specs/BasicMethods.antt",
"line": 146,
"source": "basic p Length at v vs = do\n  bytes ← as_string v\n  new_number (signed (length bytes))",
"error": false
}
],
"program": "class Main inherits IO {\n  main() : Object {\n    out_int(\"four\".length())\n  };\n};\n",
"prints": "4"
},
{
"kind": "method",
"owner": "String",
"name": "concat",
"formals": [
"String"
],
"result": "String",
"words": "The string followed by the other one.",
"running": [
{
"kind": "rule",
"name": "basic",
"premises": [],
"conclusion": [
[
"v",
"S"
],
[
"",
" ⊢ String("
],
[
"v",
"s"
],
[
"",
")."
],
[
"p",
"concat"
],
[
"",
"(String("
],
[
"v",
"s′"
],
[
"",
")) : String("
],
[
"v",
"s"
],
[
"",
" then "
],
[
"v",
"s′"
],
[
"",
"), "
],
[
"v",
"S"
]
],
"file": "crates/cool_meaning/specs/BasicMethods.antt",
"line": 149,
"source": "basic p Concat at v vs = do\n  bytes ← as_string v\n  w ← one vs\n  more ← as_string w\n  new_string (bytes ++ more)",
"error": false
}
],
"program": "class Main inherits IO {\n  main() : Object {\n    out_string(\"ab\".concat(\"cd\"))\n  };\n};\n",
"prints": "abcd"
},
{
"kind": "method",
"owner": "String",
"name": "substr",
"formals": [
"Int",
"Int"
],
"result": "String",
"words": "So many bytes from a position, which counts from 0. A position or length beyond the end is an error.",
"running": [
{
"kind": "rule",
"name": "basic-Substring",
"premises": [
{
"pieces": [
[
"",
"there is no "
],
[
"v",
"s"
],
[
"",
" from "
],
[
"v",
"n"
],
[
"",
", "
],
[
"v",
"l"
],
[
"",
" long"
]
]
}
],
"conclusion": [
[
"v",
"S"
],
[
"",
" ⊢ String("
],
[
"v",
"s"
],
[
"",
")."
],
[
"p",
"substr"
],
[
"",
"(Int("
],
[
"v",
"n"
],
[
"",
"), Int("
],
[
"v",
"l"
],
[
"",
")) : error “Substring out of range”, "
],
[
"v",
"S"
]
],
"file": "crates/cool_meaning/specs/BasicMethods.antt",
"line": 154,
"source": "basic p Substr at v vs = do\n  bytes ← as_string v\n  ws ← two vs\n  i ← as_number ws.0\n  l ← as_number ws.1\n  substring at (part bytes i l)",
"error": true
},
{
"kind": "rule",
"name": "basic",
"premises": [
{
"pieces": [
[
"v",
"s"
],
[
"",
" from "
],
[
"v",
"n"
],
[
"",
", "
],
[
"v",
"l"
],
[
"",
" long = "
],
[
"v",
"s′"
]
]
}
],
"conclusion": [
[
"v",
"S"
],
[
"",
" ⊢ String("
],
[
"v",
"s"
],
[
"",
")."
],
[
"p",
"substr"
],
[
"",
"(Int("
],
[
"v",
"n"
],
[
"",
"), Int("
],
[
"v",
"l"
],
[
"",
")) : String("
],
[
"v",
"s′"
],
[
"",
"), "
],
[
"v",
"S"
]
],
"file": "crates/cool_meaning/specs/BasicMethods.antt",
"line": 154,
"source": "basic p Substr at v vs = do\n  bytes ← as_string v\n  ws ← two vs\n  i ← as_number ws.0\n  l ← as_number ws.1\n  substring at (part bytes i l)",
"error": false
}
],
"program": "class Main inherits IO {\n  main() : Object {\n    out_string(\"Cool\".substr(1, 2))\n  };\n};\n",
"prints": "oo"
}
]
},
{
"id": "lexemes",
"number": "10",
"heading": "Lexical structure",
"words": "A file is read as lexemes, white space and comments, one behind the other; the longest form counts.",
"entries": [
{
"kind": "table",
"heading": "Keywords, in any case",
"rows": [
[
[
[
"p",
"class"
],
[
"",
" "
],
[
"p",
"else"
],
[
"",
" "
],
[
"p",
"false"
],
[
"",
" "
],
[
"p",
"fi"
],
[
"",
" "
],
[
"p",
"if"
],
[
"",
" "
],
[
"p",
"in"
],
[
"",
" "
],
[
"p",
"inherits"
],
[
"",
" "
],
[
"p",
"isvoid"
],
[
"",
" "
],
[
"p",
"let"
],
[
"",
" "
],
[
"p",
"loop"
],
[
"",
" "
],
[
"p",
"pool"
],
[
"",
" "
],
[
"p",
"then"
],
[
"",
" "
],
[
"p",
"while"
],
[
"",
" "
],
[
"p",
"case"
],
[
"",
" "
],
[
"p",
"esac"
],
[
"",
" "
],
[
"p",
"new"
],
[
"",
" "
],
[
"p",
"of"
],
[
"",
" "
],
[
"p",
"not"
],
[
"",
" "
],
[
"p",
"true"
]
]
]
],
"file": "crates/cool_syntax/specs/Lexemes.antt",
"line": 88
},
{
"kind": "table",
"heading": "Signs",
"rows": [
[
[
[
"p",
"("
],
[
"",
" "
],
[
"p",
")"
],
[
"",
" "
],
[
"p",
"*"
],
[
"",
" "
],
[
"p",
"+"
],
[
"",
" "
],
[
"p",
","
],
[
"",
" "
],
[
"p",
"-"
],
[
"",
" "
],
[
"p",
"."
],
[
"",
" "
],
[
"p",
"/"
],
[
"",
" "
],
[
"p",
":"
],
[
"",
" "
],
[
"p",
";"
],
[
"",
" "
],
[
"p",
"<"
],
[
"",
" "
],
[
"p",
"="
],
[
"",
" "
],
[
"p",
"@"
],
[
"",
" "
],
[
"p",
"{"
],
[
"",
" "
],
[
"p",
"}"
],
[
"",
" "
],
[
"p",
"~"
],
[
"",
" "
],
[
"p",
"<-"
],
[
"",
" "
],
[
"p",
"<="
],
[
"",
" "
],
[
"p",
"=>"
]
]
]
],
"file": "crates/cool_syntax/specs/Lexemes.antt",
"line": 54
},
{
"kind": "table",
"heading": "White space",
"rows": [
[
[
[
"",
"tab, newline, vertical tab, form feed, carriage return, blank"
]
]
]
],
"file": "crates/cool_syntax/specs/Lexemes.antt",
"line": 36
},
{
"kind": "table",
"heading": "Behind a \\ in a string",
"rows": [
[
[
[
"p",
"\\b"
]
],
[
[
"",
"backspace"
]
]
],
[
[
[
"p",
"\\f"
]
],
[
[
"",
"form feed"
]
]
],
[
[
[
"p",
"\\n"
]
],
[
[
"",
"newline"
]
]
],
[
[
[
"p",
"\\t"
]
],
[
[
"",
"tab"
]
]
],
[
[
[
"",
"any other byte but a null"
]
],
[
[
"",
"itself"
]
]
]
],
"file": "crates/cool_syntax/specs/Lexemes.antt",
"line": 146
},
{
"kind": "table",
"heading": "Words and numbers",
"rows": [
[
[
[
"",
"TYPE"
]
],
[
[
"",
"a capital letter, then letters, digits and _; no keyword"
]
]
],
[
[
[
"",
"name"
]
],
[
[
"",
"a small letter, then letters, digits and _; no keyword"
]
]
],
[
[
[
"p",
"true"
],
[
"",
" "
],
[
"p",
"false"
]
],
[
[
"",
"begin with a small letter; the others may be capitals"
]
]
],
[
[
[
"",
"integer"
]
],
[
[
"",
"digits"
]
]
]
],
"file": "crates/cool_syntax/specs/Lexemes.antt",
"line": 248
},
{
"kind": "table",
"heading": "Comments",
"rows": [
[
[
[
"p",
"--"
]
],
[
[
"",
"to the end of the line"
]
]
],
[
[
[
"p",
"(*"
],
[
"",
" "
],
[
"p",
"*)"
]
],
[
[
"",
"over lines; they nest"
]
]
]
],
"file": "crates/cool_syntax/specs/Lexemes.antt",
"line": 200
}
],
"faults": [
{
"kind": "L1",
"words": "unknown character",
"mend": "Cool has no `>`, `!`, `%`, `'` or `[`; if it is the first character of the file, save without a byte order mark",
"case": "check-L1-smallest",
"files": [
{
"name": "p.cl",
"text": "_\n"
}
],
"says": "p.cl:1: L1: unknown character"
},
{
"kind": "L2",
"words": "string not closed",
"mend": "close it on this line; to continue on the next line, end the line with `\\`, as its last byte (no CR)",
"case": "check-L2-smallest",
"files": [
{
"name": "p.cl",
"text": "\"abc\n"
}
],
"says": "p.cl:1: L2: string not closed"
},
{
"kind": "L3",
"words": "null byte in string",
"mend": "remove the byte 0, and check that the file is a text",
"case": "check-L3-smallest",
"files": [
{
"name": "p.cl",
"text": "\"a\u0000b\"\n"
}
],
"says": "p.cl:1: L3: null byte in string"
},
{
"kind": "L4",
"words": "string too long",
"mend": "join shorter strings with `concat`",
"case": "check-L4-smallest",
"files": null,
"says": "p.cl:1: L4: string too long"
},
{
"kind": "L5",
"words": "comment not closed",
"mend": "write a `*)` for each `(*`: comments nest",
"case": "check-L5-smallest",
"files": [
{
"name": "p.cl",
"text": "(* open\n"
}
],
"says": "p.cl:1: L5: comment not closed"
},
{
"kind": "L6",
"words": "comment not opened",
"mend": "remove the `*)`, or look for its `(*` in a line comment or a string",
"case": "check-L6-smallest",
"files": [
{
"name": "p.cl",
"text": "*)\n"
}
],
"says": "p.cl:1: L6: comment not opened"
},
{
"kind": "L7",
"words": "integer too large",
"mend": "the greatest Int is `2147483647`; write the least one as `~2147483647 - 1`",
"case": "check-L7-smallest",
"files": [
{
"name": "p.cl",
"text": "2147483648\n"
}
],
"says": "p.cl:1: L7: integer too large"
},
{
"kind": "L8",
"words": "feature too long",
"mend": "split the method into several methods",
"case": "check-L8-smallest",
"files": null,
"says": "p.cl:1: L8: feature too long"
}
]
},
{
"id": "syntax",
"number": "11",
"heading": "Syntax",
"words": "The forms in which tokens follow one another. A call without a receiver is one of self, and a let of several variables is one let inside the other.",
"entries": [
{
"kind": "production",
"name": "program",
"alternatives": [
[],
[
[
"n",
"program"
],
[
"n",
"heading"
],
[
"n",
"features"
],
[
"p",
"}"
],
[
"p",
";"
]
]
],
"file": "crates/cool_syntax/specs/Readings.antt",
"line": 133
},
{
"kind": "production",
"name": "heading",
"alternatives": [
[
[
"p",
"class"
],
[
"v",
"TYPE"
],
[
"n",
"parent"
],
[
"p",
"{"
]
]
],
"file": "crates/cool_syntax/specs/Readings.antt",
"line": 129
},
{
"kind": "production",
"name": "parent",
"alternatives": [
[],
[
[
"p",
"inherits"
],
[
"v",
"TYPE"
]
]
],
"file": "crates/cool_syntax/specs/Readings.antt",
"line": 125
},
{
"kind": "production",
"name": "features",
"alternatives": [
[],
[
[
"n",
"features"
],
[
"n",
"feature"
]
]
],
"file": "crates/cool_syntax/specs/Readings.antt",
"line": 121
},
{
"kind": "production",
"name": "feature",
"alternatives": [
[
[
"n",
"signature"
],
[
"n",
"expr"
],
[
"p",
"}"
],
[
"p",
";"
]
],
[
[
"n",
"variable"
],
[
"p",
";"
]
],
[
[
"n",
"variable"
],
[
"p",
"<-"
],
[
"n",
"expr"
],
[
"p",
";"
]
]
],
"file": "crates/cool_syntax/specs/Readings.antt",
"line": 116
},
{
"kind": "production",
"name": "signature",
"alternatives": [
[
[
"v",
"name"
],
[
"p",
"("
],
[
"n",
"formals"
],
[
"p",
")"
],
[
"p",
":"
],
[
"v",
"TYPE"
],
[
"p",
"{"
]
]
],
"file": "crates/cool_syntax/specs/Readings.antt",
"line": 111
},
{
"kind": "production",
"name": "formals",
"alternatives": [
[],
[
[
"n",
"first_formals"
],
[
"n",
"variable"
]
]
],
"file": "crates/cool_syntax/specs/Readings.antt",
"line": 107
},
{
"kind": "production",
"name": "first_formals",
"alternatives": [
[],
[
[
"n",
"first_formals"
],
[
"n",
"variable"
],
[
"p",
","
]
]
],
"file": "crates/cool_syntax/specs/Readings.antt",
"line": 103
},
{
"kind": "production",
"name": "binding",
"alternatives": [
[
[
"n",
"variable"
]
],
[
[
"n",
"variable"
],
[
"p",
"<-"
],
[
"n",
"expr"
]
]
],
"file": "crates/cool_syntax/specs/Readings.antt",
"line": 99
},
{
"kind": "production",
"name": "bindings",
"alternatives": [
[],
[
[
"n",
"bindings"
],
[
"n",
"binding"
],
[
"p",
","
]
]
],
"file": "crates/cool_syntax/specs/Readings.antt",
"line": 95
},
{
"kind": "production",
"name": "prefix",
"alternatives": [
[
[
"p",
"let"
],
[
"n",
"bindings"
],
[
"n",
"binding"
],
[
"p",
"in"
]
],
[
[
"v",
"name"
],
[
"p",
"<-"
]
],
[
[
"v",
"unary"
]
]
],
"file": "crates/cool_syntax/specs/Readings.antt",
"line": 90
},
{
"kind": "production",
"name": "branch",
"alternatives": [
[
[
"n",
"variable"
],
[
"p",
"=>"
],
[
"n",
"expr"
],
[
"p",
";"
]
]
],
"file": "crates/cool_syntax/specs/Readings.antt",
"line": 87
},
{
"kind": "production",
"name": "branches",
"alternatives": [
[],
[
[
"n",
"branches"
],
[
"n",
"branch"
]
]
],
"file": "crates/cool_syntax/specs/Readings.antt",
"line": 83
},
{
"kind": "production",
"name": "parts",
"alternatives": [
[],
[
[
"n",
"parts"
],
[
"n",
"expr"
],
[
"v",
"separator"
]
]
],
"file": "crates/cool_syntax/specs/Readings.antt",
"line": 79
},
{
"kind": "production",
"name": "args",
"alternatives": [
[],
[
[
"n",
"parts"
],
[
"",
" with "
],
[
"p",
","
],
[
"n",
"expr"
]
]
],
"file": "crates/cool_syntax/specs/Readings.antt",
"line": 74
},
{
"kind": "production",
"name": "callee",
"alternatives": [
[
[
"v",
"name"
]
],
[
[
"n",
"expr"
],
[
"p",
"."
],
[
"v",
"name"
]
],
[
[
"n",
"expr"
],
[
"p",
"@"
],
[
"v",
"TYPE"
],
[
"p",
"."
],
[
"v",
"name"
]
]
],
"file": "crates/cool_syntax/specs/Readings.antt",
"line": 68
},
{
"kind": "production",
"name": "expr",
"alternatives": [
[
[
"v",
"name"
]
],
[
[
"v",
"constant"
]
],
[
[
"p",
"new"
],
[
"v",
"TYPE"
]
],
[
[
"p",
"("
],
[
"n",
"expr"
],
[
"p",
")"
]
],
[
[
"n",
"callee"
],
[
"p",
"("
],
[
"n",
"args"
],
[
"p",
")"
]
],
[
[
"p",
"if"
],
[
"n",
"expr"
],
[
"p",
"then"
],
[
"n",
"expr"
],
[
"p",
"else"
],
[
"n",
"expr"
],
[
"p",
"fi"
]
],
[
[
"p",
"while"
],
[
"n",
"expr"
],
[
"p",
"loop"
],
[
"n",
"expr"
],
[
"p",
"pool"
]
],
[
[
"p",
"{"
],
[
"n",
"parts"
],
[
"",
" with "
],
[
"p",
";"
],
[
"n",
"expr"
],
[
"p",
";"
],
[
"p",
"}"
]
],
[
[
"p",
"case"
],
[
"n",
"expr"
],
[
"p",
"of"
],
[
"n",
"branches"
],
[
"n",
"branch"
],
[
"p",
"esac"
]
],
[
[
"n",
"expr"
],
[
"v",
"operator"
],
[
"n",
"expr"
]
],
[
[
"n",
"prefix"
],
[
"n",
"expr"
]
]
],
"file": "crates/cool_syntax/specs/Readings.antt",
"line": 52
},
{
"kind": "production",
"name": "variable",
"alternatives": [
[
[
"v",
"name"
],
[
"p",
":"
],
[
"v",
"TYPE"
]
]
],
"file": "crates/cool_syntax/specs/Readings.antt",
"line": 47
},
{
"kind": "table",
"heading": "Levels of operators, the loosest first",
"head": [
"",
"",
"groups"
],
"rows": [
[
[
[
"",
"0"
]
],
[
[
"p",
"let … in"
]
],
[
[
"",
"as far to the right as it can"
]
]
],
[
[
[
"",
"1"
]
],
[
[
"p",
"<-"
]
],
[
[
"",
"to the right"
]
]
],
[
[
[
"",
"2"
]
],
[
[
"p",
"not"
]
],
[
[
"",
"it stands in front"
]
]
],
[
[
[
"",
"3"
]
],
[
[
"p",
"<  <=  ="
]
],
[
[
"",
"not at all"
]
]
],
[
[
[
"",
"4"
]
],
[
[
"p",
"+  -"
]
],
[
[
"",
"to the left"
]
]
],
[
[
[
"",
"5"
]
],
[
[
"p",
"*  /"
]
],
[
[
"",
"to the left"
]
]
],
[
[
[
"",
"6"
]
],
[
[
"p",
"isvoid"
]
],
[
[
"",
"it stands in front"
]
]
],
[
[
[
"",
"7"
]
],
[
[
"p",
"~"
]
],
[
[
"",
"it stands in front"
]
]
]
],
"file": "crates/cool_syntax/specs/Shapes.antt",
"line": 12
}
],
"faults": [
{
"kind": "S1",
"words": "unexpected token",
"mend": "look for a missing `;`, `fi`, `pool` or `esac` before it; minus is `~`, and `--` begins a comment",
"case": "check-S1-smallest",
"files": [
{
"name": "p.cl",
"text": "class\n"
}
],
"says": "p.cl:2: S1: unexpected token"
}
]
},
{
"id": "words",
"number": "",
"heading": "What the words mean",
"words": "The words that stand in the rules, as the definitions tell of them.",
"entries": [
{
"kind": "word",
"pieces": [
[
"v",
"T₁, …, Tₙ"
],
[
"",
" ≤"
],
[
"s",
"C"
],
[
"",
" "
],
[
"v",
"formals"
]
],
"words": "Each argument conforms to its formal, and there are as many",
"name": "AreArguments",
"file": "crates/cool_rules/specs/Typing.antt",
"line": 59,
"source": "AreArguments p c [] [] = Unit {0}\nAreArguments p c [] (formal ∷ formals) = ⊥\nAreArguments p c (t ∷ ts) [] = ⊥\nAreArguments p c (t ∷ ts) (formal ∷ formals) = ((u : Ty) × Denotes p formal u × Conforms p c t u) × AreArguments p c ts formals"
},
{
"kind": "word",
"pieces": [
[
"v",
"M"
],
[
"",
"("
],
[
"v",
"C"
],
[
"",
", "
],
[
"v",
"x"
],
[
"",
") = "
],
[
"v",
"m"
]
],
"words": "The first class on the chain of this one that has a method of the name has this one",
"name": "IsImplementation",
"file": "crates/cool_rules/specs/Typing.antt",
"line": 55,
"source": "IsImplementation p c f m = (ds : List ClassId) × IsChain p (Some c) ds × (implementation p ds f ≡ Some m)"
},
{
"kind": "word",
"pieces": [
[
"v",
"T₀"
],
[
"",
" = ⊔"
],
[
"s",
"C"
],
[
"",
" "
],
[
"v",
"T₁, …, Tₙ"
]
],
"words": "",
"name": "IsJoinOfBranches",
"file": "crates/cool_rules/specs/Typing.antt",
"line": 90,
"source": "IsJoinOfBranches p c [] join = join ≡ object_type\nIsJoinOfBranches p c (t ∷ ts) join = IsJoinOfAll p c (t ∷ ts) join"
},
{
"kind": "word",
"pieces": [
[
"v",
"x"
],
[
"",
" ≠ "
],
[
"p",
"self"
]
],
"words": "",
"name": "IsNotSelf",
"file": "crates/cool_rules/specs/Typing.antt",
"line": 48,
"source": "IsNotSelf name = bytes_eq name (codes \"self\") ≡ false"
},
{
"kind": "word",
"pieces": [
[
"",
"types of "
],
[
"v",
"attribute₁, …, attributeₙ"
]
],
"words": "",
"name": "attributes_in_scope",
"file": "crates/cool_rules/specs/Typing.antt",
"line": 159,
"source": "attributes_in_scope p rs = map (attribute_binding p) rs"
},
{
"kind": "word",
"pieces": [
[
"",
"attributes("
],
[
"v",
"d₁, …, dₙ"
],
[
"",
")"
]
],
"words": "The attributes of the classes of a chain, from the greatest ancestor down",
"name": "attributes_of",
"file": "crates/cool_classes/specs/Features.antt",
"line": 92,
"source": "attributes_of p [] = []\nattributes_of p (d ∷ ds) = attributes_of p ds ++ own_attributes d 0 (features_of p d)"
},
{
"kind": "word",
"pieces": [
[
"",
"types("
],
[
"v",
"b₁, …, bₙ"
],
[
"",
")"
]
],
"words": "The names of the types of branches",
"name": "branch_types",
"file": "crates/cool_rules/specs/Typing.antt",
"line": 95,
"source": "branch_types NoCase = []\nbranch_types (CaseOf at name declared t cs) = declared.name ∷ branch_types cs"
},
{
"kind": "word",
"pieces": [
[
"",
"class"
],
[
"s",
"C"
],
[
"",
"("
],
[
"v",
"T"
],
[
"",
")"
]
],
"words": "The class that a type stands for in a class",
"name": "class_of",
"file": "crates/cool_rules/specs/Conformance.antt",
"line": 21,
"source": "class_of c (IsClass a) = a\nclass_of c SelfType = c"
},
{
"kind": "word",
"pieces": [
[
"",
"types of "
],
[
"v",
"list"
]
],
"words": "",
"name": "formals_in_scope",
"file": "crates/cool_rules/specs/Typing.antt",
"line": 156,
"source": "formals_in_scope p fs = map (formal_binding p) fs"
},
{
"kind": "word",
"pieces": [
[
"",
"formals("
],
[
"v",
"m"
],
[
"",
")"
]
],
"words": "The types of the formals of a method, as the source names them, and its result",
"name": "formals_of",
"file": "crates/cool_classes/specs/Features.antt",
"line": 128,
"source": "formals_of p (Basic b) = basic_formals b\nformals_of p (User c k) = formals_in (slice_get (features_of p c) k)"
},
{
"kind": "word",
"pieces": [
[
"v",
"O"
],
[
"",
"("
],
[
"v",
"x"
],
[
"",
")"
]
],
"words": "The value of the latest binding of a name",
"name": "found",
"file": "crates/cool_rules/specs/Scopes.antt",
"line": 24,
"source": "found [] name = None\nfound (b ∷ bs) name = if bytes_eq b.name name then Some b.value else found bs name"
},
{
"kind": "word",
"pieces": [
[
"",
"name("
],
[
"v",
"C"
],
[
"",
")"
]
],
"words": "",
"name": "name_of",
"file": "crates/cool_classes/specs/Chains.antt",
"line": 22,
"source": "name_of p c = (class_at p c).name"
},
{
"kind": "word",
"pieces": [
[
"",
"parent("
],
[
"v",
"C"
],
[
"",
")"
]
],
"words": "",
"name": "parent_of",
"file": "crates/cool_classes/specs/Chains.antt",
"line": 25,
"source": "parent_of p c = (class_at p c).parent"
},
{
"kind": "word",
"pieces": [
[
"",
"result("
],
[
"v",
"m"
],
[
"",
")"
]
],
"words": "",
"name": "result_of",
"file": "crates/cool_classes/specs/Features.antt",
"line": 132,
"source": "result_of p (Basic b) = basic_result b\nresult_of p (User c k) = result_in (slice_get (features_of p c) k)"
},
{
"kind": "word",
"pieces": [
[
"v",
"T₂"
],
[
"",
"["
],
[
"v",
"T₁"
],
[
"",
"/"
],
[
"p",
"SELF_TYPE"
],
[
"",
"]"
]
],
"words": "The type of a call whose method declares a result",
"name": "result_on",
"file": "crates/cool_rules/specs/Typing.antt",
"line": 66,
"source": "result_on receiver (IsClass c) = IsClass c\nresult_on receiver SelfType = receiver"
},
{
"kind": "word",
"pieces": [
[
"v",
"O"
],
[
"",
"["
],
[
"v",
"T"
],
[
"",
"/"
],
[
"v",
"x"
],
[
"",
"]"
]
],
"words": "",
"name": "with_name",
"file": "crates/cool_rules/specs/Typing.antt",
"line": 51,
"source": "with_name name type scope = record { name = name; value = type } ∷ scope"
},
{
"kind": "word",
"pieces": [
[
"",
"attributes("
],
[
"v",
"C"
],
[
"",
")"
]
],
"words": "The attributes of the objects of a class",
"name": "attributes",
"file": "crates/cool_meaning/specs/Lookups.antt",
"line": 31,
"source": "attributes p c = attributes_of p (chain p c)"
},
{
"kind": "word",
"pieces": [
[
"",
"chain("
],
[
"v",
"C"
],
[
"",
")"
]
],
"words": "A class and those above it",
"name": "chain",
"file": "crates/cool_classes/specs/ClimbedChains.antt",
"line": 17,
"source": "chain p c = c ∷ above p c"
},
{
"kind": "word",
"pieces": [
[
"",
"class("
],
[
"v",
"x"
],
[
"",
", "
],
[
"v",
"v"
],
[
"",
")"
]
],
"words": "The class that `new` makes in a method of an object: for SELF_TYPE the object's own",
"name": "class_made",
"file": "crates/cool_meaning/specs/Lookups.antt",
"line": 18,
"source": "class_made p self name = if bytes_eq name self_type then class_of self else class_named p name"
},
{
"kind": "word",
"pieces": [
[
"",
"class("
],
[
"v",
"x"
],
[
"",
")"
]
],
"words": "The class of a name, if there is one",
"name": "class_named",
"file": "crates/cool_rules/specs/Rules.antt",
"line": 48,
"source": "class_named p name = first_named 0 (map (λ (c : Class). c.name) p) name"
},
{
"kind": "word",
"pieces": [
[
"",
"class("
],
[
"v",
"v"
],
[
"",
")"
]
],
"words": "The class of an object; void has none",
"name": "class_of",
"file": "crates/cool_meaning/specs/Values.antt",
"line": 16,
"source": "class_of Void = None\nclass_of (Int n) = Some (class_number 2)\nclass_of (Bool b) = Some (class_number 3)\nclass_of (Str bytes) = Some (class_number 4)\nclass_of (Obj c i ls) = Some c"
},
{
"kind": "word",
"pieces": [
[
"",
"default("
],
[
"v",
"x"
],
[
"",
")"
]
],
"words": "The value that a variable of a type begins with",
"name": "default_of",
"file": "crates/cool_meaning/specs/Values.antt",
"line": 24,
"source": "default_of type =\n    if bytes_eq type (codes \"Int\") then Int (pos 0)\n    else (if bytes_eq type (codes \"Bool\") then Bool false\n    else (if bytes_eq type (codes \"String\") then Str [] else Void))"
},
{
"kind": "word",
"pieces": [
[
"",
"defaults("
],
[
"v",
"attribute₁, …, attributeₙ"
],
[
"",
")"
]
],
"words": "The default value of an attribute, before its initial value",
"name": "default_values",
"file": "crates/cool_meaning/specs/Lookups.antt",
"line": 35,
"source": "default_values p rs = map (λ (a : AttributeRef). default_of (attribute_type p a)) rs"
},
{
"kind": "word",
"pieces": [
[
"",
"attributes("
],
[
"v",
"v"
],
[
"",
")"
]
],
"words": "",
"name": "environment_of",
"file": "crates/cool_meaning/specs/Lookups.antt",
"line": 71,
"source": "environment_of p self = attributes_at p (class_of self) (locations_of self)"
},
{
"kind": "word",
"pieces": [
[
"",
"names("
],
[
"v",
"list"
],
[
"",
")"
]
],
"words": "",
"name": "formal_names",
"file": "crates/cool_meaning/specs/Lookups.antt",
"line": 56,
"source": "formal_names fs = map (λ f. f.name) fs"
},
{
"kind": "word",
"pieces": [
[
"v",
"M"
],
[
"",
"("
],
[
"v",
"d₁, …, dₙ"
],
[
"",
", "
],
[
"v",
"x"
],
[
"",
")"
]
],
"words": "The method of a name that the classes of a chain have, the nearest first",
"name": "implementation",
"file": "crates/cool_classes/specs/Features.antt",
"line": 81,
"source": "implementation p [] f = None\nimplementation p (d ∷ ds) f = first_of (own_method p d f) (implementation p ds f)"
},
{
"kind": "word",
"pieces": [
[
"",
"init("
],
[
"v",
"attributeref"
],
[
"",
")"
]
],
"words": "",
"name": "init_of",
"file": "crates/cool_meaning/specs/Lookups.antt",
"line": 44,
"source": "init_of p a = init_in (slice_get (features_of p a.owner) a.index)"
},
{
"kind": "word",
"pieces": [
[
"v",
"v"
],
[
"",
" is void"
]
],
"words": "",
"name": "is_void",
"file": "crates/cool_meaning/specs/Evaluation.antt",
"line": 100,
"source": "is_void Void = true\nis_void _ = false"
},
{
"kind": "word",
"pieces": [
[
"",
"the next line of "
],
[
"v",
"S"
]
],
"words": "",
"name": "line_of",
"file": "crates/cool_meaning/specs/BasicMethods.antt",
"line": 100,
"source": "line_of [] = record { bytes = []; rest = [] }\nline_of (b ∷ rest) =\n    if b == 0 then line_of rest\n    else (if b == 10 then record { bytes = []; rest = rest }\n    else record { bytes = b ∷ (line_of rest).bytes; rest = (line_of rest).rest })"
},
{
"kind": "word",
"pieces": [
[
"v",
"E"
],
[
"",
"("
],
[
"v",
"x"
],
[
"",
")"
]
],
"words": "The location of a name",
"name": "location_of",
"file": "crates/cool_meaning/specs/Values.antt",
"line": 50,
"source": "location_of [] name = None\nlocation_of (b ∷ bs) name = if bytes_eq b.name name then Some b.location else location_of bs name"
},
{
"kind": "word",
"pieces": [
[
"",
"method("
],
[
"v",
"C"
],
[
"",
"."
],
[
"v",
"k"
],
[
"",
")"
]
],
"words": "",
"name": "method_at",
"file": "crates/cool_meaning/specs/Lookups.antt",
"line": 27,
"source": "method_at p owner k = method_in (slice_get (features_of p owner) k)"
},
{
"kind": "word",
"pieces": [
[
"",
"nearest("
],
[
"v",
"b₁, …, bₙ"
],
[
"",
", "
],
[
"v",
"d₁, …, dₙ"
],
[
"",
")"
]
],
"words": "The branch of the first of these classes that has one",
"name": "nearest",
"file": "crates/cool_meaning/specs/Evaluation.antt",
"line": 158,
"source": "nearest p branch [] = None\nnearest p branch (c ∷ cs) = or_else (branch (name_of p c)) (nearest p branch cs)"
},
{
"kind": "word",
"pieces": [
[
"",
"number("
],
[
"v",
"x"
],
[
"",
")"
]
],
"words": "",
"name": "number_of",
"file": "crates/cool_meaning/specs/Numbers.antt",
"line": 47,
"source": "number_of line = number_after_blanks (skip_blanks line)"
},
{
"kind": "word",
"pieces": [
[
"v",
"x"
],
[
"",
" from "
],
[
"v",
"n"
],
[
"",
", "
],
[
"v",
"n′"
],
[
"",
" long"
]
],
"words": "So many bytes from a position, where the string has them",
"name": "part",
"file": "crates/cool_meaning/specs/BasicMethods.antt",
"line": 112,
"source": "part bytes (pos i) (pos l) = if nat_le (i + l) (length bytes) then Some (take l (drop i bytes)) else None\npart bytes (pos i) (negsuc l) = None\npart bytes (negsuc i) l = None"
},
{
"kind": "word",
"pieces": [
[
"v",
"v₁"
],
[
"",
" equals "
],
[
"v",
"v₂"
]
],
"words": "Numbers, truths and strings are equal by value, objects by identity, and void only to void",
"name": "same",
"file": "crates/cool_meaning/specs/Evaluation.antt",
"line": 76,
"source": "same Void Void = true\nsame (Int m) (Int n) = same_number m n\nsame (Bool a) (Bool b) = (if a then b else not b)\nsame (Str xs) (Str ys) = bytes_eq xs ys\nsame (Obj c i ls) (Obj d j ks) = nat_eq i j\nsame _ _ = false"
},
{
"kind": "word",
"pieces": [
[
"",
"signed("
],
[
"v",
"k"
],
[
"",
")"
]
],
"words": "The low 32 bits, read with their sign",
"name": "signed",
"file": "crates/cool_meaning/specs/Numbers.antt",
"line": 15,
"source": "signed n = if nat_lt (n % 2 ^ 32) (2 ^ 31) then pos (n % 2 ^ 32) else negsuc (2 ^ 32 - 1 - n % 2 ^ 32)"
}
]
}
];
