// The code of the program: its assembly by `asm`, and the table of code by `cool_editor --code`, each in a separate worker. A script computes them on demand,
// and again after a file changes. Other scripts call `cool_editor` by this script, too.
"use strict";

const compiler = new Runner();
let assembled;

// The assembly: a promise of { text }, or of { fault } with the reason if there is none.
function assembly() {
    const made = async () => {
        const parts = [];
        const came = await compiler.run(["asm", "--", ...fileNames()], sources(), { pieces: (all) => parts.push(...all.map((it) => it.bytes)) });
        if (came.status === 0) return { text: await new Blob(parts).text() };
        return { fault: came.status === 1 ? "The program has faults." : endWords(came) };
    };
    assembled ??= made();
    return assembled;
}

let editorModule, coded;
const coder = new Runner(() => editorModule);

// The output of `cool_editor` for the files, with these arguments: a promise of { rows }, or of { fault } with the reason if there is none.
async function toldBy(runner, ...words) {
    if (typeof COOL_EDITOR_MODULE === "undefined") return { fault: "editor-module.js is missing beside this page: copy all scripts of web/" };
    const numbered = new Map(files.map((it, i) => [`${i}.cl`, encode(it.text)])), parts = [];
    editorModule ??= await load(COOL_EDITOR_MODULE);
    const came = await runner.run([...words, ...numbered.keys()], numbered, { pieces: (all) => parts.push(...all.map((it) => it.bytes)) });
    if (came.status === 0) return { rows: await new Blob(parts).text() };
    return { fault: came.status === 1 ? "The program has faults." : endWords(came) ?? "stopped" };
}

// The table of code, as a promise of { rows } or { fault }.
const codeTable = () => (coded ??= toldBy(coder, "--code"));

whenever("changed", () => ([assembled, coded] = []));
