// Lists the classes of a program with their methods, from the names that `cool_editor` lists, and the methods of the basic classes.
"use strict";
const { placeKey } = require("./marks.js");

// The kind of what completes a word.
const METHOD = 2;
// The methods of the basic classes, with their signatures and the names of their formals (docs/language.md). Each name stands in one class alone.
const GIVEN = {
    Object: { abort: ["():Object", ""], type_name: ["():String", ""], copy: ["():SELF_TYPE", ""] },
    IO: {
        out_string: ["(String):SELF_TYPE", "x"], out_int: ["(Int):SELF_TYPE", "x"],
        in_string: ["():String", ""], in_int: ["():Int", ""],
    },
    String: { length: ["():Int", ""], concat: ["(String):String", "s"], substr: ["(Int,Int):String", "i l"] },
};
const givenIn = (name) => (Object.hasOwn(GIVEN, name) ? Object.entries(GIVEN[name]) : []);
const GIVEN_FORMALS = new Map(Object.keys(GIVEN).flatMap((it) => givenIn(it).map(([name, [, formals]]) => [name, formals.split(" ").filter(Boolean)])));

// The classes by name: { name, the name of its parent, the marks of its methods, and by the place of each the names of its formals }. Where a type stands
// right behind the name of a class it is its parent.
function classesOf(marks) {
    const found = new Map();
    let last, before;
    for (const mark of marks) {
        const method = last?.methods.at(-1);
        if (mark.role === "class") found.set(mark.name, (last = { name: mark.name, parent: "Object", methods: [], formals: new Map() }));
        else if (!last); // of a class whose name stands no more where it stood
        else if (mark.role === "type" && before === "class") last.parent = mark.name;
        else if (mark.role === "method") last.methods.push(mark), last.formals.set(placeKey(mark.place), []);
        else if (mark.role === "formal" && method) last.formals.get(placeKey(method.place)).push(mark.name);
        before = mark.role;
    }
    return found;
}

// The names of a class and of those above it.
function chain(classes, name) {
    const names = [];
    for (; classes.has(name); name = classes.get(name).parent) names.push(name);
    return [...new Set([...names, name, "Object"])];
}

// The methods of a class with those that it inherits, the nearest of each name, as what completes a word.
function members(classes, type) {
    const items = new Map();
    for (const owner of type ? chain(classes, type) : []) {
        const it = classes.get(owner);
        const own = it
            ? it.methods.map((mark) => [mark.name, mark.type, it.formals.get(placeKey(mark.place))])
            : givenIn(owner).map(([name, [signature]]) => [name, signature, GIVEN_FORMALS.get(name)]);
        for (const [name, signature, formals] of own) {
            if (!items.has(name)) items.set(name, { label: name, kind: METHOD, detail: spaced(signature, formals) });
        }
    }
    return [...items.values()];
}

// The names of the formals of the method that a mark means.
function formalsOf(marks, mark) {
    if (!mark.target) return GIVEN_FORMALS.get(mark.name) ?? [];
    const key = placeKey(mark.target);
    return [...classesOf(marks).values()].find((it) => it.formals.has(key))?.formals.get(key) ?? [];
}

// The formals of a signature, with their names where these are known.
function parameters(signature, formals) {
    const types = signature.slice(1, signature.indexOf(")")).split(",").filter(Boolean);
    return formals.length === types.length ? types.map((it, i) => `${formals[i]} : ${it}`) : types;
}

const resultOf = (signature) => signature.slice(signature.lastIndexOf(":") + 1);
const spaced = (signature, formals) => `(${parameters(signature, formals).join(", ")}) : ${resultOf(signature)}`;

// A mark as a person reads it.
function markTold(mark, formals) {
    if (mark.role === "class" || mark.role === "type") return `class ${mark.name}`;
    return mark.type.startsWith("(") ? mark.name + spaced(mark.type, formals) : `${mark.name} : ${mark.type}`;
}

module.exports = { chain, classesOf, formalsOf, givenIn, markTold, members, parameters, resultOf, spaced };
