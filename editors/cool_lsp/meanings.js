// Answers requests about a name, such as hover, definition and references, by the names that `cool_editor` lists (marks). If there
// are no marks, since the files are no class table or there is no program for them, each answer is undefined.
"use strict";
const { keyOf } = require("../node/programs.js");
const { pathIn } = require("./answers.js");
const { MAIN } = require("./diagnostics.js");
const { isSame, moved } = require("./marks.js");
const { formalsOf, markTold } = require("./members.js");
const { Text } = require("./ranges.js");
const { haveSame } = require("./teller.js");

// Kinds of places that are highlighted.
const READ = 2, WRITTEN = 3;
const READING = ["type", "variable", "call"];

// Finds the meanings of names in the files, in the state of the last look.
class Meanings {
    constructor(files, programs, marks) {
        Object.assign(this, { files, programs, marks });
        this.kept = new Map(); // by a program: the last files that had marks, and these where they were asked for
    }

    // A promise of the marks of a program of a file, with other bytes for some files, or of undefined.
    async of(file, changed = []) {
        for (const program of this.programs.of(file)) {
            const files = new Map([...program.map((it) => [it, this.files.data(it)]), ...changed]);
            const found = await this.orWithMain(files);
            if (found) return found;
        }
        return undefined;
    }

    async orWithMain(files) {
        return (await this.marks.of(files)) ?? this.marks.of(new Map([...files, ["", MAIN]]));
    }

    // A promise of the marks of the program of a file, and the one at a place of it; of none where there are none.
    async named(params) {
        const file = pathIn(params), at = new Text(this.files.data(file)).place(params.position);
        return foundAt(await this.of(file), file, at);
    }

    // The same, where there are none by those of the last text that had some.
    async seen(params) {
        const file = pathIn(params), at = new Text(this.files.data(file)).place(params.position);
        return foundAt((await this.of(file)) ?? (await this.before(file)), file, at);
    }

    // Takes note of the files of programs that are class tables as they were checked last.
    keep(whole) {
        const programs = new Set([...this.files.open.keys()].flatMap((it) => this.programs.of(it)).map(keyOf));
        this.kept = new Map([...this.kept].filter(([key]) => programs.has(key)));
        for (const [key, files] of whole) if (!this.kept.has(key) || !haveSame(this.kept.get(key).files, files)) this.kept.set(key, { files });
    }

    // A promise of the marks of a program of a file in the last text that had some, at the places that they have now; of undefined where there was none.
    async before(file) {
        for (const program of this.programs.of(file)) {
            const kept = this.kept.get(keyOf(program));
            if (!kept) continue;
            kept.marks ??= (await this.orWithMain(kept.files)) ?? [];
            const now = new Map([...kept.files.keys()].map((it) => [it, this.files.data(it) ?? ""]));
            if (kept.marks.length > 0) return moved(kept.marks, kept.files, now);
        }
        return undefined;
    }

    location({ path, at }, name) {
        return { uri: this.files.uri(path), range: new Text(this.files.data(path)).range(at, at + name.length) };
    }

    // The locations of marks.
    locations(marks) {
        const texts = new Map();
        return marks.map(({ place: { path, at }, name }) => {
            if (!texts.has(path)) texts.set(path, new Text(this.files.data(path)));
            return { uri: this.files.uri(path), range: texts.get(path).range(at, at + name.length) };
        });
    }

    // The type of a name, or the signature of a method.
    async hover(params) {
        const [marks, mark] = await this.seen(params);
        if (!mark || mark.type === "?") return undefined;
        const contents = { kind: "markdown", value: `\`\`\`cool\n${markTold(mark, formalsOf(marks, mark))}\n\`\`\`` };
        return { contents, range: this.location(mark.place, mark.name).range };
    }

    async definition(params) {
        const [, mark] = await this.seen(params);
        return mark?.target?.path ? [this.location(mark.target, mark.name)] : undefined;
    }

    async references(params) {
        const [marks, mark] = await this.named(params);
        if (!mark?.target) return undefined;
        const isDeclared = params.context?.includeDeclaration ?? true;
        const uses = marks.filter((it) => isSame(it.target, mark.target) && it.place.path);
        return this.locations(uses.filter((it) => isDeclared || !isSame(it.place, mark.target)));
    }

    // The places of a name in its file; those where it is defined or assigned to are told apart.
    async highlight(params) {
        const [marks, mark] = await this.seen(params);
        if (!mark?.target) return undefined;
        const here = marks.filter((it) => isSame(it.target, mark.target) && it.place.path === mark.place.path);
        return this.locations(here).map(({ range }, i) => ({ range, kind: READING.includes(here[i].role) ? READ : WRITTEN }));
    }
}

// Marks, and the one of them at a place, where there is one.
function foundAt(marks, file, at) {
    return [marks, marks?.filter((it) => it.place.path === file && it.place.at <= at && at <= it.end).at(-1)];
}

module.exports = { Meanings, foundAt };
