// Explains in a hover why an expression has its type, and at a type error which premise of which rule fails, as in the view "Why" of the page.
"use strict";
const fs = require("fs");
const path = require("path");
const vm = require("vm");
const { Derivations } = require("../../web/logic/derivations.js");
const { RulesOfForms, failingOf, wordsOfPieces } = require("../../web/logic/rules-of-forms.js");
const { Trees } = require("../../web/logic/trees.js");
const { pathIn } = require("./answers.js");
const { MAIN } = require("./diagnostics.js");
const { Text } = require("./ranges.js");
const { Teller } = require("./teller.js");

const SCRIPT = path.join(__dirname, "..", "..", "web", "rules.js");
// Lines below a rule, and characters of an expression in them.
const MOST_LINES = 20, MOST_LETTERS = 60;

const treesOf = (files, output) => new Trees(output, Array.from(files, ([name, data]) => ({ name, data })));

// Code in Markdown, whatever is in it.
function code(text) {
    const most = Math.max(0, ...(text.match(/`+/g) ?? []).map((it) => it.length)), fence = "`".repeat(most + 1);
    return most > 0 ? `${fence} ${text} ${fence}` : fence + text + fence;
}

class Reasons {
    // Takes the files in the state of the last look. `cool` is the path of the program, or undefined.
    constructor(files, programs, marks, cool, seconds) {
        Object.assign(this, { files, programs, marks });
        this.trees = new Teller(cool, seconds, ["--trees"], treesOf);
    }

    // The rules of the page, which are read when they are needed.
    get rules() {
        this.read ??= new RulesOfForms(fs.existsSync(SCRIPT) ? vm.runInNewContext(`${fs.readFileSync(SCRIPT)}; COOL_RULES`) : []);
        return this.read;
    }

    // The files of the programs of a file.
    programsOf = (file) => this.programs.of(file).map((all) => new Map(all.map((it) => [it, this.files.data(it)])));

    // A promise of the derivations of the first program of a file that is legal, as it is or with a class Main.
    async derivations(file) {
        for (const files of this.programsOf(file)) {
            const first = await this.trees.of(files), all = !first || first.byName.has("Main") ? files : new Map([...files, ["", MAIN]]);
            const trees = await this.trees.of(all), marks = trees?.isTyped ? await this.marks.of(all) : undefined;
            if (marks) return new Derivations(trees, marks.map(namedAt), this.rules);
        }
        return undefined;
    }

    // The derivation of the type of the innermost expression at a place.
    async hover(params) {
        const file = pathIn(params), text = new Text(this.files.data(file)), at = text.place(params.position);
        const known = await this.derivations(file), node = known && (known.trees.around(file, at) ?? known.trees.around(file, at, 1));
        return node && { contents: { kind: "markdown", value: derivationTold(node, known) }, range: text.range(node.first, known.trees.endsAt(node)) };
    }

    // A promise of paragraphs about the rules that an error breaks; of none where it is no error of typing.
    async broken({ path: file, start, kind, rule, facts }) {
        if (kind[0] !== "E") return [];
        for (const files of this.programsOf(file)) {
            const trees = await this.trees.of(files), here = failingOf(kind, facts);
            const rules = this.rules.broken(kind, rule?.name, trees?.around(file, start));
            if (rules.length > 0) return [...rules.map((it) => ruleTold(it, kind)), ...(here ? [`Here ${code(here)} does not hold.`] : [])];
        }
        return [];
    }
}

const namedAt = ({ place, type, target }) => ({ file: place.path, byte: place.at, type, target: target && { file: target.path, byte: target.at } });

function derivationTold(node, known) {
    const typed = (it, most) => code(`${known.trees.textOf(it, most)} : ${it.type}`);
    const parts = node.parts.map((it) => `- ${typed(it, MOST_LETTERS)}`);
    const sides = known.conditions(node).map(({ words, more, place }) => `- ${[code(words), more, place?.words].filter(Boolean).join(", ")}`);
    const lines = [...parts, ...sides], rest = lines.length > MOST_LINES ? [`- and ${lines.length - MOST_LINES} more`] : [];
    return [`${typed(node)} by the rule **${known.ruleName(node)}**`, [...lines.slice(0, MOST_LINES), ...rest].join("\n")].filter(Boolean).join("\n\n");
}

function ruleTold(rule, kind) {
    const premises = rule.premises.map(({ pieces, faults }) => `- ${code(wordsOfPieces(pieces))}${faults?.includes(kind) ? " does not hold" : ""}`);
    return `The rule **${rule.name}**, for ${code(wordsOfPieces(rule.conclusion))}:\n\n${premises.join("\n")}`;
}

// Two answers about a place as one; each may be missing.
function joined(one, other) {
    if (!one || !other) return one ?? other ?? null;
    return { ...one, contents: { kind: "markdown", value: `${one.contents.value}\n\n${other.contents.value}` } };
}

module.exports = { Reasons, joined };
