// Converts the breakpoints that an editor sets at lines and methods to the addresses at which a run stops.
"use strict";
const { Unread, readConditions } = require("./conditions.js");

// One break. `told` is what the client is told of it; `asked` is what it asked for, and `reads` that as conditions.js reads it.
class Breakpoint {
    constructor(kind, asked, told, { places = [], addresses = [] } = {}, reads = {}) {
        Object.assign(this, { kind, asked, told, places, addresses, reads, hits: [], holding: new Map(), known: new Map() });
    }

    isAt(stop) {
        return this.places.includes(stop.place) || this.addresses.includes(stop.pc);
    }

    // Whether it depends on the state that it stops there.
    get isOpen() {
        return Object.values(this.reads).some((it) => it !== undefined);
    }

    // A promise of whether its condition holds, or of { wrong } where that cannot be told. It is asked once of each state.
    holds(steps, { value }) {
        const { condition } = this.reads;
        if (!condition) return true;
        const failed = (error) => {
            this.holding.delete(steps);
            throw error;
        };
        if (!this.holding.has(steps)) this.holding.set(steps, condition(value).catch(failed));
        return this.holding.get(steps);
    }

    // Whether it stops a run that goes on to there, at which `look` looks (debuggee.js). It is asked once of each state, since what it says then is said
    // once.
    async stops(steps, look) {
        if (!this.isOpen) return true;
        if (!this.known.has(steps)) this.known.set(steps, await this.judged(steps, look));
        return this.known.get(steps);
    }

    async judged(steps, look) {
        const { counts, message } = this.reads, holds = await this.holds(steps, look);
        if (!holds) return false;
        if (holds.wrong) {
            await look.tell(`cool-dap: the condition "${this.asked.condition}" cannot be evaluated here: ${holds.wrong}\n`, true);
            return true;
        }
        if (counts && !counts(this.countedTo(steps))) return false;
        if (message) await look.tell(`${await message(look.value)}\n`);
        return message === undefined;
    }

    // The number of a hit among those that are known, in the order of the run.
    countedTo(steps) {
        let at = this.hits.length;
        while (at > 0 && this.hits[at - 1] > steps) at -= 1;
        this.hits.splice(at, 0, steps);
        return at + 1;
    }

    // Whether it is one to go back to: one that stopped, or would by its condition. Hits are counted going on alone.
    async stoppedAt(steps, look) {
        const { counts, message } = this.reads;
        return this.known.has(steps) || !(counts || message) ? this.stops(steps, look) : false;
    }
}

class Breakpoints {
    constructor() {
        this.lines = new Map();
        this.functions = [];
        this.count = 0;
    }

    // Each break is asked for by its line, and by what conditions.js reads. One that was there `before`, and is asked for in the same words, stays as it is,
    // with its hits: a client names all breaks of a file where one is new.
    setLines(file, asked, debuggee, before = this.lines.get(file) ?? []) {
        this.lines.set(file, asked.map((it) => sameIn(before, it) ?? this.lineAt(file, it, debuggee)));
        return this.lines.get(file).map((it) => it.told);
    }

    lineAt(file, asked, { program, logic, view }) {
        const { line } = asked, name = program.nameOf(file);
        const found = name === undefined ? undefined : logic.breakOfLine(name, line, view);
        if (found) return this.made("breakpoint", asked, { line: found.line, source: { name, path: file } }, found, logic);
        const message = name === undefined ? "this file is not part of the program" : "there is no expression in this line or below it";
        return this.refused(asked, { line, message });
    }

    // Each is asked for by its name.
    setFunctions(asked, debuggee, before = this.functions) {
        this.functions = asked.map((it) => sameIn(before, it) ?? this.functionAt(it, debuggee));
        return this.functions.map((it) => it.told);
    }

    functionAt(asked, { program, logic, listing, outline }) {
        const labels = labelsOf(asked.name.trim(), listing, logic);
        if (labels.length === 0) return this.refused(asked, { message: `${asked.name} is no method: write Class.method` });
        const { line, file } = outline.get(labels[0]) ?? {};
        const where = file === undefined ? {} : { line, source: { name: file, path: program.pathOf(file) } };
        return this.made("function breakpoint", asked, where, { addresses: labels.map((it) => listing.labels.get(it)) }, logic);
    }

    made(kind, asked, told, where, logic) {
        try {
            return new Breakpoint(kind, asked, { id: (this.count += 1), verified: true, ...told }, where, readConditions(asked, logic));
        } catch (error) {
            if (!(error instanceof Unread)) throw error;
            return this.refused(asked, { ...told, message: error.message });
        }
    }

    // One that never stops, with the reason.
    refused(asked, told) {
        return new Breakpoint(undefined, asked, { id: (this.count += 1), verified: false, ...told });
    }

    // The same breaks in a program that was launched anew.
    renew(debuggee) {
        for (const [file, its] of this.lines) this.setLines(file, its.map((it) => it.asked), debuggee, []);
        this.setFunctions(this.functions.map((it) => it.asked), debuggee, []);
    }

    get all() {
        return [...[...this.lines.values()].flat(), ...this.functions];
    }

    // The breaks in the form that the moves of stops.js take.
    get breaks() {
        const { all } = this;
        return {
            places: all.flatMap((it) => it.places), addresses: all.flatMap((it) => it.addresses), areOpen: all.some((it) => it.isOpen),
            isOpen: (stop) => this.at(stop).some((it) => it.isOpen),
        };
    }

    at(stop) {
        return this.all.filter((it) => it.isAt(stop));
    }

    // Whether each break at a stop has said whether it stops there.
    isKnown(stop) {
        return this.at(stop).every((it) => !it.isOpen || it.known.has(stop.steps));
    }

    // Asks the conditions of those at a stop.
    ask(stop, look) {
        return Promise.all(this.at(stop).map((it) => it.holds(stop.steps, look)));
    }

    // Whether one of them stops a run that goes on; each is asked, since each may have something to say.
    async stops(stop, look) {
        let stops = false;
        for (const it of this.at(stop)) stops = (await it.stops(stop.steps, look)) || stops;
        return stops;
    }

    // Whether one of them is one to go back to.
    async stoppedAt(stop, look) {
        for (const it of this.at(stop)) if (await it.stoppedAt(stop.steps, look)) return true;
        return false;
    }

    // Those that stopped a run there.
    hitBy(stop) {
        return this.at(stop).filter((it) => !it.isOpen || it.known.get(stop.steps));
    }
}

const sameIn = (all, asked) => all.find((it) => JSON.stringify(it.asked) === JSON.stringify(asked));

// The labels of a method's name: with its class, that of the method which an object of the class has; or alone, for each class that has one; or of any other
// label of the code.
function labelsOf(name, { labels, classes }, { DATA_START }) {
    const [, owner, method] = /^(?:(\w+)\.)?(\w+)$/.exec(name) ?? [];
    if (owner === undefined) return [...labels.keys()].filter((it) => labels.get(it) < DATA_START && (it === name || it.endsWith(`.${method}`)));
    return (classes.find((it) => it.name === owner)?.methods ?? []).filter((it) => it.endsWith(`.${method}`));
}

module.exports = { Breakpoints };
