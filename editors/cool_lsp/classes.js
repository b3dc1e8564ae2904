// Answers requests about a class name: definition, references, renaming, and completion.
//
// A type identifier names the class of that name wherever it stands, so this needs no types and no tree.
"use strict";
const { bare, hasFault, matchAt } = require("../../web/logic/lexemes.js");
const { BASIC, TYPE, defined, isKeyword, named } = require("../../web/logic/names.js");
const { pathIn } = require("./answers.js");
const { Text } = require("./ranges.js");

const WORD = /[A-Za-z0-9_]*$/;
const TYPE_HERE = new RegExp(TYPE.source, "y");
const IS_TYPE = /^[A-Z][A-Za-z0-9_]*$/;
// The kind of what completes a word.
const CLASS = 7;

// Thrown if a request cannot be fulfilled. The message says why.
class Refused extends Error {}

// Finds classes in the files, in the state of the last look.
class Classes {
    constructor(files, programs) {
        Object.assign(this, { files, programs });
    }

    // The path of an open file, and the type identifier at a place of it, as what stands before the place and all of it; both may be empty.
    word(params) {
        const file = pathIn(params), text = new Text(this.files.data(file)), at = text.place(params.position);
        const [code] = bare(text.data), from = text.starts[text.line(at) - 1];
        const start = from + WORD.exec(code.slice(from, at)).index, found = matchAt(TYPE_HERE, code, start);
        return found && !isKeyword(found[0]) ? [file, code.slice(start, at), found[0]] : [file, "", ""];
    }

    // All files of the programs of a file.
    filesOf(file) {
        return [...new Set(this.programs.of(file).flat())].sort();
    }

    // The places of a class in all programs of the file, as `find` finds them in each file.
    places(params, find) {
        const [file, , name] = this.word(params);
        return (BASIC.has(name) ? [] : this.filesOf(file)).flatMap((other) => {
            const text = new Text(this.files.data(other) ?? "");
            return (find(bare(text.data)[0]).get(name) ?? []).map((it) => ({ uri: this.files.uri(other), range: text.range(...it) }));
        });
    }

    definition(params) {
        return this.places(params, defined);
    }

    references(params) {
        const places = this.places(params, named);
        if (params.context?.includeDeclaration ?? true) return places;
        const there = this.places(params, defined).map((it) => JSON.stringify(it));
        return places.filter((it) => !there.includes(JSON.stringify(it)));
    }

    highlight(params) {
        const uri = this.files.uri(pathIn(params));
        return this.places(params, named).filter((it) => it.uri === uri).map(({ range }) => ({ range }));
    }

    // The classes of the programs of a file whose names begin as the word at a place does: a capital letter begins the name of a class alone.
    completion(params) {
        const [file, begun] = this.word(params);
        if (!begun) return [];
        const names = new Set([...BASIC, ...this.filesOf(file).flatMap((it) => [...this.programs.names(it).defined])]);
        return [...names].sort().filter((it) => it.startsWith(begun)).map((label) => ({ label, kind: CLASS }));
    }

    // The edits that give a class another name in all programs that have it.
    rename(params) {
        const [file, , name] = this.word(params), { newName } = params;
        if (!name || BASIC.has(name)) throw new Refused("only classes of the program can be renamed");
        if (!IS_TYPE.test(newName) || BASIC.has(newName) || isKeyword(newName)) {
            throw new Refused("the name of a class is a capital letter, followed by letters, digits and `_`: choose one that is no keyword or basic class");
        }
        const files = this.sharing(file, name);
        for (const it of files) {
            const data = this.files.data(it);
            if (data === null || hasFault(data)) throw new Refused(`${it} is missing, or has a lexical error, so not all names in it can be found`);
            if (this.programs.names(it).defined.has(newName) || this.programs.names(it).named.has(newName)) {
                throw new Refused(`${newName} is named in ${it} already: choose another name`);
            }
        }
        if (!files.some((it) => this.programs.names(it).defined.has(name))) throw new Refused("no file of the program defines this class");
        const edits = files.map((it) => [this.files.uri(it), this.edits(it, name, newName)]);
        return { changes: Object.fromEntries(edits.filter(([, it]) => it.length > 0)) };
    }

    edits(file, name, newText) {
        const text = new Text(this.files.data(file));
        return (named(bare(text.data)[0]).get(name) ?? []).map((it) => ({ range: text.range(...it), newText }));
    }

    // The files of all programs that share a file in which a class is named.
    sharing(file, name) {
        const found = new Set();
        for (const due = [file]; due.length > 0; ) {
            const more = this.filesOf(due.pop()).filter((it) => !found.has(it));
            more.forEach((it) => found.add(it));
            due.push(...more.filter((it) => this.programs.names(it).named.has(name)));
        }
        return [...found].sort();
    }
}

module.exports = { Classes, Refused };
