// Keeps copies of the debugged files as they were at the launch. They are kept in a folder of their own, since each look runs them anew, and they
// may be edited meanwhile.
"use strict";
const fs = require("fs");
const os = require("os");
const path = require("path");
const { programsOf } = require("../node/programs.js");

class LaunchFailed extends Error {}

// The files, by the rule of README.md where one is named.
function filesOf({ program, files, cwd = process.cwd() }) {
    const given = Array.isArray(files) && files.length > 0 ? files : [program];
    const isNamed = given.every((it) => typeof it === "string" && it !== "");
    if (!isNamed) throw new LaunchFailed('The launch names no file: set "program" to a file of Cool, or "files" to all of them.');
    const found = given.map((it) => path.resolve(cwd, it));
    return found.length > 1 || files?.length === 1 ? found : programsOf(found[0])[0];
}

// The folder that all files are in, so that names from it on lead to none above it.
function folderOf(paths) {
    let folder = path.dirname(paths[0]);
    while (!paths.every((it) => it.startsWith(folder === "/" ? "/" : folder + path.sep))) folder = path.dirname(folder);
    return folder;
}

class Program {
    constructor(settings) {
        this.paths = [...new Set(filesOf(settings))];
        const above = folderOf(this.paths);
        this.names = this.paths.map((it) => path.relative(above, it));
        this.folder = fs.mkdtempSync(path.join(os.tmpdir(), "cool-dap-"));
        try {
            this.files = this.paths.map((it, i) => this.kept(it, this.names[i]));
        } catch (error) {
            this.remove();
            throw new LaunchFailed(`${error.path ?? this.paths[0]}: ${error.code === "ENOENT" ? "no such file" : error.message}`);
        }
        this.scripts = 0;
    }

    get sources() {
        return path.join(this.folder, "sources");
    }

    // A file with its text, and its bytes as a string in which each is a letter.
    kept(from, name) {
        const bytes = fs.readFileSync(from), to = path.join(this.sources, name);
        fs.mkdirSync(path.dirname(to), { recursive: true });
        fs.writeFileSync(to, bytes);
        return { name, text: bytes.toString(), data: bytes.toString("latin1") };
    }

    // A file with the lines of a script.
    script(lines) {
        const name = path.join(this.folder, `script${(this.scripts += 1)}`);
        fs.writeFileSync(name, lines.join("\n"));
        return name;
    }

    pathOf(name) {
        return this.paths[this.names.indexOf(name)];
    }

    nameOf(file) {
        const real = (it) => (fs.existsSync(it) ? fs.realpathSync(it) : it);
        return this.names[this.paths.findIndex((it) => it === file || real(it) === real(file))];
    }

    remove() {
        fs.rmSync(this.folder, { recursive: true, force: true });
    }
}

module.exports = { Program, LaunchFailed };
