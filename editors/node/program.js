// Finds the program to use: `cool`, `cool_editor` or `cool_explain`.
"use strict";
const fs = require("fs");
const path = require("path");
const { log } = require("./log.js");
const { SCRIPTS } = require("./module.js");
const { kill, start, whyNot } = require("./processes.js");

const TOP = path.join(fs.realpathSync(__dirname), "..", "..");
const PICKS = path.join(TOP, "release", "program");
// How the line begins by which that script tells, once in a checkout, that it runs a released program: no log of an editor needs it.
const TELLS = "cool: running release/";

// There is no program; the words say why.
class Missing extends Error {}

// A promise of the path of the program of a name, or of "module", by which its module is meant: the one that is named, by a word or by COOL, COOL_EDITOR or
// COOL_EXPLAIN in the environment, else the one installed beside the server, else that of the repository in which the server stands (on Windows the one
// of release/), else the one on PATH, else its module.
async function find(name, named, seconds) {
    const given = named || process.env[name.toUpperCase()];
    if (given) return given;
    const released = path.join(TOP, "release", `${name}.exe`);
    if (process.platform === "win32" && fs.existsSync(released)) return released;
    if (process.platform !== "win32" && isExecutable(PICKS)) return ofRepository(name, seconds);
    const found = [path.join(TOP, name), ...onPath(name), ...onPath(name.replace("_", "-"))].find(isExecutable);
    if (found) return found;
    if (fs.existsSync(SCRIPTS[name][0])) return "module";
    const option = name === "cool" ? "--cool or " : "";
    throw new Missing(`there is no program \`${name}\`: install it by ./install, or name it by ${option}${name.toUpperCase()}`);
}

// A promise of the program of a name that goes with this `cool`: the one that the environment names, its module with the module, the one beside it, else the
// one that is found.
async function findBeside(name, cool, seconds) {
    const given = process.env[name.toUpperCase()];
    if (given || cool === "module") return given || cool;
    if (cool && path.basename(cool) !== cool) {
        const real = fs.existsSync(cool) ? fs.realpathSync(cool) : cool;
        const beside = path.join(path.dirname(real), path.basename(real).replace(/^cool/, name));
        if (beside !== real && isExecutable(beside)) return beside;
    }
    return find(name, undefined, seconds);
}

function onPath(name) {
    const file = process.platform === "win32" ? `${name}.exe` : name;
    return (process.env.PATH ?? "").split(path.delimiter).filter(Boolean).map((it) => path.join(it, file));
}

function isExecutable(file) {
    try {
        fs.accessSync(file, fs.constants.X_OK);
        return fs.statSync(file).isFile();
    } catch {
        return false;
    }
}

// The path that the repository's script gives for the program of the current sources.
function ofRepository(name, seconds) {
    return new Promise((answer, fail) => {
        const child = start(PICKS, [name], "sh"), said = [], notes = [];
        let isLate = false;
        const timer = setTimeout(() => ((isLate = true), kill(child)), 1000 * seconds);
        child.stdout.on("data", (bytes) => said.push(bytes));
        child.stderr.on("data", (bytes) => notes.push(bytes));
        child.stdin.on("error", () => {});
        child.on("error", (error) => (clearTimeout(timer), fail(new Missing(whyNot(PICKS, error)))));
        child.on("close", (status) => {
            clearTimeout(timer);
            if (isLate) return fail(new Missing(`${PICKS} did not end within ${seconds} seconds: call ./cool once`));
            const lines = Buffer.concat(notes).toString().split("\n").slice(0, -1), found = Buffer.concat(said).toString().replace(/\n+$/, "");
            lines.filter((it) => !it.startsWith(TELLS)).forEach(log);
            if (status === 0 && found) answer(found);
            else fail(new Missing(lines.at(-1) ?? `${PICKS} ended with status ${status}`));
        });
    });
}

module.exports = { Missing, find, findBeside };
