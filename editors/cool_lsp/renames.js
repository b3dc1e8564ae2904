// Renames a variable, or a method together with those that it redefines and that redefine it.
"use strict";
const { KEYWORDS } = require("../../web/logic/names.js");
const { Refused } = require("./classes.js");
const { placeKey } = require("./marks.js");
const { chain, classesOf, givenIn } = require("./members.js");

const NAME = /^[a-z][A-Za-z0-9_]*$/;
const RESERVED = new Set([...KEYWORDS, "true", "false", "self"]);

class Renames {
    constructor(files, programs, meanings) {
        Object.assign(this, { files, programs, meanings });
    }

    // A promise of the edits, and of undefined for a class. With them the program has the same marks but for the name: else they are refused.
    async rename(params) {
        const [marks, mark] = await this.meanings.named(params), { newName } = params;
        if (!mark || mark.role === "class" || mark.role === "type") return undefined;
        if (!mark.target?.path) throw new Refused("only what the program defines can be renamed");
        if (!NAME.test(newName) || RESERVED.has(newName)) {
            throw new Refused("a name is a small letter, followed by letters, digits and `_`: choose one that is neither a keyword nor `self`");
        }
        if (this.programs.of(mark.target.path).length > 1) throw new Refused(`${mark.target.path} is a part of several programs`);
        const targets = familyOf(marks, mark), due = marks.filter((it) => it.target && targets.has(placeKey(it.target)));
        const texts = [...new Set(due.map((it) => it.place.path))].map((file) => {
            const here = due.filter((it) => it.place.path === file).map((it) => it.place.at);
            return [file, edited(this.files.data(file), here, mark.name.length, newName)];
        });
        const renamed = await this.meanings.of(mark.place.path, texts);
        if (!renamed || shapeOf(renamed) !== shapeOf(marks, new Set(due), newName)) throw new Refused("with this name something would mean something else");
        const changes = {};
        for (const { uri, range } of this.meanings.locations(due)) (changes[uri] ??= []).push({ range, newText: newName });
        return { changes };
    }
}

// The places of the definitions that have one name with that of a mark: of a method those of all classes that are below or above one another.
function familyOf(marks, mark) {
    const classes = classesOf(marks), targets = new Set([placeKey(mark.target)]);
    if (!mark.type.startsWith("(")) return targets;
    const owners = new Map();
    for (const { name, methods } of classes.values()) {
        for (const it of methods) if (it.name === mark.name) owners.set(placeKey(it.place), { name, above: chain(classes, name) });
    }
    const isRelated = (one, other) => other.above.includes(one.name) || one.above.includes(other.name);
    for (let count = 0; count < targets.size; ) {
        count = targets.size;
        for (const [key, owner] of owners) if ([...targets].some((it) => owners.has(it) && isRelated(owner, owners.get(it)))) targets.add(key);
    }
    const above = [...targets].flatMap((it) => owners.get(it)?.above ?? []);
    if (above.some((it) => givenIn(it).some(([name]) => name === mark.name))) throw new Refused("a basic class has this method");
    return targets;
}

// A text with another name at these places.
function edited(data, places, length, name) {
    for (const at of [...places].sort((one, other) => other - one)) data = data.slice(0, at) + name + data.slice(at + length);
    return data;
}

// The marks without their places: of each its role, its name, which is a new one where that is due, its type, and the number of the mark at which it is
// defined.
function shapeOf(marks, due = new Set(), name = "") {
    const numbers = new Map(marks.map((it, number) => [placeKey(it.place), number]));
    return JSON.stringify(marks.map((it) => [it.role, due.has(it) ? name : it.name, it.type, it.target ? numbers.get(placeKey(it.target)) : undefined]));
}

module.exports = { RESERVED, Renames };
