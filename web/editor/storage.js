// Stores the program in the browser's local storage. If the browser refuses that, as in a private window, nothing is stored, and all else works.
"use strict";

// The most files that a command takes.
const MOST_FILES = 64;
const KEPT = "cool-program", BEFORE = "cool-program-before", THEME = "cool-theme", HOSTED = "cool-hosted", KEEP_DELAY = 400;

function kept(key) {
    try {
        return localStorage.getItem(key);
    } catch {
        return null;
    }
}

function keep(key, value) {
    try {
        localStorage.setItem(key, value);
    } catch {
        // The storage is refused or full.
    }
}

// Whether the user has edited the program. It is false for an example or a link after it is opened.
let edited = false;

const programText = () => JSON.stringify({ files: files.map(({ name, text }) => ({ name, text })), input: at("input").value, edited });

// The timer of the delayed store. The page does not store at each key, because that may take as long as a check.
let keeping;

function keepProgram() {
    clearTimeout(keeping);
    keep(KEPT, programText());
}

function keepProgramSoon() {
    clearTimeout(keeping);
    keeping = setTimeout(keepProgram, KEEP_DELAY);
}

// Parses a program, { files, input, edited }. Returns undefined if the text is not one.
function programFrom(json) {
    let it;
    try {
        it = JSON.parse(json);
    } catch {
        return undefined;
    }
    const isFile = (one) => typeof one?.name === "string" && typeof one.text === "string" && one.name !== "" && !/[\0-\x1f]/.test(one.name);
    if (!Array.isArray(it?.files) || it.files.length === 0 || it.files.length > MOST_FILES || !it.files.every(isFile)) return undefined;
    if (new Set(it.files.map((one) => one.name)).size < it.files.length) return undefined;
    return { files: it.files, input: typeof it.input === "string" ? it.input : "", edited: it.edited === true };
}

// Opens another program. If the user has edited the current one, it is stored, and the user can choose it among the examples.
function openProgram({ files: all, input = "" }, isEdited = false) {
    if (edited) keep(BEFORE, programText());
    happened("opened");
    setFiles(all);
    at("input").value = input;
    changedFiles(isEdited);
}

whenever("changed", (isEdited) => ((edited = isEdited), keepProgramSoon()));
addEventListener("pagehide", keepProgram);
