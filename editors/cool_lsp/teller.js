// Runs `cool_editor` over files and returns its output: the names, or the trees. It keeps the last output for the same files.
"use strict";
const { log } = require("../node/log.js");
const { Missing, findBeside } = require("../node/program.js");
const { Inquiry } = require("./inquiry.js");

// Whether two maps have the same files.
const haveSame = (one, other) => one.size === other.size && [...one].every(([path, data]) => other.get(path) === data && other.has(path));

class Teller {
    // `cool` is the program that is named, or undefined; `words` are the option of `cool_editor`, and `read` reads its output about files, a map of bytes by
    // path.
    constructor(cool, seconds, words, read) {
        Object.assign(this, { cool, seconds, words, read, known: new Map(), told: undefined });
    }

    // A promise of what is told of files, a map of bytes by path; of undefined where the program refuses them, or where there is no program.
    async of(files) {
        if (!haveSame(this.known, files)) {
            this.told = await this.ask(files);
            this.known = new Map(files);
        }
        return this.told;
    }

    // A promise of the path of the program, or of undefined: without it the server tells less, and that is no fault.
    async find() {
        try {
            this.program ??= await findBeside("cool_editor", this.cool, this.seconds);
        } catch (error) {
            if (!(error instanceof Missing)) throw error;
        }
        return this.program;
    }

    async ask(files) {
        if (!(await this.find())) return undefined;
        const { status, output } = (await new Inquiry("cool_editor", this.program, this.words, this.seconds).answer(files)) ?? {};
        if (status !== 0) return undefined;
        try {
            return this.read(files, output);
        } catch (error) {
            log(`cool_editor wrote lines of no form that is known: ${error.message}`);
            return undefined;
        }
    }
}

module.exports = { Teller, haveSame };
