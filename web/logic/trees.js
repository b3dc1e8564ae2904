// Parses the classes, features and expressions of a program from the output of `cool_editor --trees` (docs/phases.md). Each expression has its type, its
// parts, and the places where its text begins and ends.
"use strict";

const LEXEMES = typeof module === "object" ? { ...require("./bytes.js"), ...require("./lexemes.js") } : { hidden, lexemeEnd, textOfLetters };

const TREE_LINE = /^(\w+) (\d+):(\d+):(\d+) (.*)$/;
const TREE_NODE = /^\d+:\d+:(\d+) \d+:\d+:(\d+) \d+ (\S+) (\S+) ?(.*)$/;
// The names of a form that precede the numbers of its parts in a line.
const TREE_NAMES = { assign: ["name"], call: ["name"], static: ["declared", "name"], let: ["name", "declared"], new: ["declared"], name: ["name"],
    integer: ["value"], bool: ["value"], string: ["value"] };
// The most bytes of an expression that are read for its text.
const MOST_LOOKED_AT = 2000;

const treeKey = (...words) => words.join(":");

// Whether a name is a receiver `self` that the text omits. Such a name has the place of the method's name.
const isUnnamed = ({ form, byte, parent }) => form === "name" && parent?.form === "call" && parent.byte === byte;

// The groups that a form matches in a line. It throws if the line has another form.
function readLine(form, line) {
    const found = form.exec(line);
    if (!found) throw new Error(`no line of trees: ${line}`);
    return found.slice(1);
}

// An expression with the names of its form. Its parts are numbers of expressions of its feature. Those of a `case` are its value, and for each branch a
// place, a name, a type, and the expression.
function readNode(place, rest) {
    const [first, last, type, form, words] = readLine(TREE_NODE, rest), names = TREE_NAMES[form] ?? [];
    const all = form === "string" ? [words] : words.split(" "), node = { ...place, first: Number(first), last: Number(last), type, form };
    names.forEach((it, i) => (node[it] = all[i]));
    node.parts = all.slice(names.length).filter((it, i) => it !== "-" && (form !== "case" || i % 4 === 0)).map(Number);
    node.branches = form === "case" ? all.filter((_, i) => i % 4 === 1) : [];
    return node;
}

class Trees {
    // Takes the rows, and the files { name, data } in the order of the command, with one character for each byte. It throws if a row has no known form. It has
    //   classes   { file, line, byte, name, parent, features }, in their order
    //   features  { kind, file, line, byte, name, type, formals, owner, nodes }: the kind is "method" or "attribute", and the last node is the whole expression
    // A node is { file, line, byte, first, last, type, form, parts, parent, feature } with its names. `first` and `last` are the offsets at which its first and
    // its last token begin.
    constructor(rows, files) {
        Object.assign(this, { classes: [], features: [], placed: new Map(), declared: new Map() });
        this.data = new Map(files.map((it) => [it.name, it.data]));
        for (const row of rows.split("\n").slice(0, -1)) {
            const [word, file, line, byte, rest] = readLine(TREE_LINE, row);
            this.add(word, { file: files[file].name, line: Number(line), byte: Number(byte) }, rest, files);
        }
        this.byName = new Map(this.classes.map((it) => [it.name, it]));
    }

    add(word, place, rest, files) {
        if (word === "fault") return;
        if (word === "node") return void this.addNode(readNode(place, rest), files);
        const [name, type] = rest.split(" "), feature = this.features.at(-1), owner = this.classes.at(-1), made = { kind: word, ...place, name, type };
        if (word === "class") return void this.classes.push({ ...place, name, parent: type === "-" ? "Object" : type, features: [] });
        this.declared.set(treeKey(place.file, place.byte), made);
        if (word === "formal") return void feature.formals.push(made);
        owner.features.push(Object.assign(made, { owner, formals: [], nodes: [] }));
        this.features.push(made);
    }

    addNode(node, files) {
        const feature = this.features.at(-1);
        Object.assign(node, { feature, parts: node.parts.map((it) => feature.nodes[it]) });
        for (const it of node.parts) it.parent = node;
        feature.nodes.push(node);
        this.placed.set(treeKey(node.file, node.byte, node.form), node);
        if (node.form === "let") this.declared.set(treeKey(node.file, node.byte), node);
        for (const it of node.branches) {
            const [file, line, byte] = it.split(":").map(Number);
            this.declared.set(treeKey(files[file].name, byte), { file: files[file].name, line });
        }
    }

    // Whether the files are a legal program, so that their expressions have types.
    get isTyped() {
        return this.features.some((it) => it.nodes.length > 0) && this.features.every((it) => it.nodes.at(-1)?.type !== "?");
    }

    // The expression of a form at a place.
    nodeAt = ({ file, byte, form }) => this.placed.get(treeKey(file, byte, form));

    // The declaration at a place: a feature, a formal, a `let`, or a branch of a `case`.
    declaredAt = ({ file, byte }) => this.declared.get(treeKey(file, byte));

    // The offset behind the last token of an expression.
    endsAt = (node) => LEXEMES.lexemeEnd(this.data.get(node.file), node.last);

    // The innermost expression that contains an offset, or ends at most `behind` bytes before it.
    around(file, byte, behind = 0) {
        const holds = (it) => it.first <= byte && byte < this.endsAt(it) + behind && !isUnnamed(it);
        const roots = this.features.filter((it) => it.file === file && it.nodes.length > 0).map((it) => it.nodes.at(-1));
        let found;
        for (let it = roots.find(holds); it; it = it.parts.find(holds)) found = it;
        return found;
    }

    // The text of an expression in one line, without comments, and shortened to `most` characters.
    textOf(node, most = 70) {
        if (isUnnamed(node)) return "self";
        const end = this.endsAt(node), to = Math.min(end, node.first + MOST_LOOKED_AT), all = this.data.get(node.file).slice(node.first, to);
        const kept = [], comments = LEXEMES.hidden(all).filter(([start]) => all[start] !== '"');
        let from = 0;
        for (const [start, behind = all.length] of comments) kept.push(all.slice(from, start), " "), (from = behind);
        const text = LEXEMES.textOfLetters([...kept, all.slice(from)].join("")).replace(/\s+/g, " ");
        return text.length > most || to < end ? `${text.slice(0, most - 1)}…` : text;
    }

    // A type and its ancestors up to Object, in the class of an expression.
    chain(type, node) {
        if (type === "SELF_TYPE") return [type, ...this.chain(node.feature.owner.name)];
        const parent = type === "Object" ? undefined : this.byName.get(type)?.parent ?? "Object";
        return parent === undefined ? [type] : [type, ...this.chain(parent)];
    }
}

if (typeof module === "object") module.exports = { Trees };
