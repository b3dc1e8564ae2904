// Asks for explanations of errors, while the errors themselves are reported at once. It waits for a pause in typing, and drops outdated answers.
"use strict";
const { log } = require("../node/log.js");
const { textOf } = require("../node/bytes.js");
const { findBeside } = require("../node/program.js");
const { Explanation } = require("./explanation.js");
const { Inquiry } = require("./inquiry.js");
const { haveSame } = require("./teller.js");

// Milliseconds without an edit, after which it is asked; seconds that an answer may take.
const REST = 200, MOST_SECONDS = 5;

class Explainer {
    // `cool` is the program that is named, or undefined, and `came` is called after each answer.
    constructor(cool, seconds, came) {
        Object.assign(this, { cool, seconds: Math.min(seconds, MOST_SECONDS), came, closed: false });
        this.wanted = new Map(); // by a program: its files
        this.known = new Map(); // by a program: { files, answer }
        this.found = this.find();
    }

    // Has these programs explained, maps of bytes by path, by their keys, and no others any more.
    want(wanted) {
        if (wanted.size === this.wanted.size && [...wanted].every(([key, files]) => this.wanted.has(key) && haveSame(files, this.wanted.get(key)))) return;
        this.wanted = wanted;
        this.known = new Map([...this.known].filter(([key]) => wanted.has(key)));
        const files = this.asked && wanted.get(this.asked.key);
        if (this.asked && !(files && haveSame(files, this.asked.files))) this.asked.inquiry.stop();
        this.rest();
    }

    // The explanation of a program, or undefined.
    of(key, files) {
        const known = this.known.get(key);
        return known && haveSame(known.files, files) ? known.answer : undefined;
    }

    // Whether an explanation of a program is still to come.
    isUnderWay(key) {
        return !this.closed && this.wanted.has(key) && this.isDue(key);
    }

    isDue(key) {
        return !this.known.has(key) || !haveSame(this.known.get(key).files, this.wanted.get(key));
    }

    // Ends for good, and what it asks with it.
    close() {
        this.closed = true;
        clearTimeout(this.timer);
        this.asked?.inquiry.stop();
    }

    // Asks for what is due, once no more edits come.
    rest() {
        clearTimeout(this.timer);
        const key = [...this.wanted.keys()].find((it) => this.isDue(it));
        if (!this.closed && !this.asked && key !== undefined) this.timer = setTimeout(() => this.ask(key, this.wanted.get(key)), REST);
    }

    async ask(key, files) {
        const inquiry = new Inquiry("cool_explain", undefined, ["--lines"], this.seconds);
        this.asked = { key, files, inquiry };
        const answer = await this.explained(inquiry, files).catch((error) => log(error.stack)); // a defect of the server costs one answer
        this.asked = undefined;
        if (this.wanted.has(key) && haveSame(this.wanted.get(key), files)) this.known.set(key, { files, answer });
        this.came();
        this.rest();
    }

    // A promise of the path of the program, or of undefined: without it less is told, which is no fault.
    async find() {
        try {
            return await findBeside("cool_explain", this.cool, this.seconds);
        } catch (error) {
            log(`errors are not explained: ${error.message}`);
            return undefined;
        }
    }

    // A promise of the explanation of files, or of undefined where none came in time, or one of another form.
    async explained(inquiry, files) {
        inquiry.command = await this.found;
        if (inquiry.command === undefined || inquiry.stopped) return undefined;
        const { status, output } = (await inquiry.answer(files)) ?? {};
        if (status !== 0 && status !== 1) return undefined;
        try {
            return new Explanation(files, textOf(output));
        } catch (error) {
            log(`cool_explain wrote lines of an unknown form: ${error.message}`);
            return undefined;
        }
    }

    // A promise of what is said of files that are edited by hand, by another call.
    tried(files) {
        return this.explained(new Inquiry("cool_explain", undefined, ["--lines"], this.seconds), files);
    }
}

module.exports = { Explainer };
