// Reads the lines of `cool_editor` (docs/editor.md): the positions of names in a program, the role of each, and the definition that it refers to.
"use strict";
const { marksOf } = require("../../web/logic/marks.js");
const { Moved } = require("./moves.js");
const { Teller } = require("./teller.js");

// A name: its place { path, at }; that of the definition is another one, or undefined where no file has it. The type is "?" where nothing is known.
class Mark {
    constructor(place, role, name, type, target) {
        Object.assign(this, { place, role, name, type, target });
    }

    get end() {
        return this.place.at + this.name.length;
    }
}

const isSame = (one, other) => one?.path === other?.path && one?.at === other?.at;
const placeKey = (place) => place && `${place.at}:${place.path}`;

// The marks of programs. Files that are no class table have none.
class Marks extends Teller {
    // `cool` is the program that is named, or undefined.
    constructor(cool, seconds) {
        super(cool, seconds, [], (files, output) => marksOf(output, [...files.keys()]).map(markOf));
    }
}

function markOf({ file, byte, role, name, type, target }) {
    return new Mark({ path: file, at: byte }, role, name, type, target && { path: target.file, at: target.byte });
}

// Marks of files at the places that their names have in later texts, both maps of bytes by path. What is there no more is left out.
function moved(marks, old, later) {
    const texts = new Map(Array.from(old, ([path, data]) => [path, new Moved(data, later.get(path))]));
    const now = (place, name) => {
        if (!place || !texts.has(place.path)) return place;
        const at = texts.get(place.path).place(place.at, name);
        return at === undefined ? undefined : { path: place.path, at };
    };
    return marks.flatMap(({ place, role, name, type, target }) => {
        const there = now(place, name);
        return there ? [new Mark(there, role, name, type, now(target, name))] : [];
    });
}

module.exports = { Mark, Marks, isSame, moved, placeKey };
