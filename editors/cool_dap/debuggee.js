// Steps the debugged program and keeps its current state. A state is a number of instructions, so it goes back as exactly as on.
"use strict";
const { StringDecoder } = require("string_decoder");
const { Cool } = require("./cool.js");
const { Frames } = require("./frames.js");
const { logicWith } = require("./logic.js");
const { LaunchFailed } = require("./program.js");

const FRAMES_OF_MOVES = 40;
// Stops that are looked at by one run.
const MOST_TOGETHER = 64;
// Instructions, and instructions a millisecond of a run of which nothing is known yet.
const FIRST_PART = 1_000_000, PART_GROWS = 4, LEAST_RATE = 1000;

class Debuggee {
    // `client` takes output, what a break has to say, and that the program reads a line that was not given yet: { output, say, askForLine }.
    constructor(programs, program, input, settings, client, sink) {
        Object.assign(this, { program, input, client, told: 0, decoder: new StringDecoder("utf8"), isStoppable: false, isSilent: false });
        this.cool = new Cool(programs, program, input, settings, sink);
        this.logic = logicWith((...all) => this.debug(...all));
        this.reads = new this.logic.Reads();
    }

    // Reads the assembly, the table of code and the trees; answers the notes of `cool` where there are none.
    async prepare() {
        const told = this.cool.code(), trees = this.cool.trees();
        for (const it of [told, trees]) it.catch(() => {});
        const { status, output, notes } = await this.cool.asm();
        if (status !== 0) return notes;
        const code = await told, { files } = this.program;
        if (code.status !== 0) throw new LaunchFailed(`cool_editor --code ended with status ${code.status}: ${code.notes}`);
        this.listing = this.logic.listingOf(output);
        this.table = this.logic.tableOf(code.output, files, this.listing);
        this.trees = this.treesOf((await trees).output, files);
        this.outline = this.logic.outlineOf(files);
        this.textOf = this.logic.textsOf(files);
        this.numbers = new Map();
    }

    treesOf(rows, files) {
        try {
            return new this.logic.Trees(rows, files);
        } catch (error) {
            throw new LaunchFailed(`${this.cool.programs.cool_editor} is of another version than cool-dap: ${error.message}`);
        }
    }

    async debug(lines, wanted, more) {
        const came = await this.cool.debug(lines, wanted, more, (bytes, before) => this.isSilent || this.tell(bytes, before));
        if (came.stopped) throw new this.logic.MoveFailed("stopped");
        const isShort = came.status !== undefined && came.notes.length < wanted && !more?.seen;
        if (isShort) throw new LaunchFailed(`${this.cool.command} debug ended with status ${came.status}`);
        return came;
    }

    // Tells what was not told yet of output that begins behind so many bytes.
    tell(bytes, before = 0) {
        const fresh = bytes.subarray(Math.max(0, this.told - before));
        if (this.told < before || fresh.length === 0) return;
        this.told += fresh.length;
        this.client.output(this.decoder.write(fresh));
    }

    get view() {
        const { state, listing, table, trees, outline, textOf, numbers } = this;
        return { state, listing, table, trees, outline, textOf, numbers };
    }

    // Where the program stands, with so many frames. Words of memory that are lacking are read.
    async frames(most = FRAMES_OF_MOVES) {
        const { state } = this;
        let found;
        do found = await state.settled(() => this.logic.stackOf(this.view, most, this.known));
        while (state.wanted.size > 0);
        return found;
    }

    async stand(steps) {
        this.state = await this.logic.State.after(steps, this.state);
        this.known = [];
    }

    // A look at the program after so many instructions, where it need not stand, taken once one asks for it: `value` promises the value of an expression
    // in the innermost frame there, or { wrong }, and `tell` says something behind the output up to there.
    lookAfter(steps) {
        let taken;
        const take = async () => {
            const state = (this.lookedAt = await this.logic.State.after(steps, this.lookedAt ?? this.state));
            return new Frames(Object.assign(Object.create(this), { state, known: [] }));
        };
        const frames = () => (taken ??= take());
        return {
            value: async (expression) => (await frames()).value(expression, 1),
            tell: async (...said) => (await this.logic.State.after(steps), this.client.say(...said)),
        };
    }

    async from() {
        return { ...this.view, frames: await this.frames() };
    }

    // The breaks of the user, and those before a read of what was not given.
    allBreaks(breakpoints) {
        const { places, addresses, areOpen, isOpen } = breakpoints?.breaks ?? { ...this.logic.NO_BREAKS, areOpen: false, isOpen: () => false };
        const own = new Set(addresses);
        const takes = (address, stop) => (this.readers.includes(address) && this.isWanted(stop.steps)) || own.has(address);
        return {
            places, addresses: [...own, ...this.readers], takes, areOpen,
            isOpen: (stop) => !this.readsAt(stop) && isOpen(stop), first: (stops) => this.firstOf(stops, breakpoints),
        };
    }

    // The first of these stops at which a break stops. Where the run is paused meanwhile it stands at the first one that is not known yet. More and more
    // of them are looked at together, by one run.
    firstOf(stops, breakpoints) {
        return this.during({ isStoppable: false, isSilent: false }, async () => {
            for (let i = 0, together = 1; i < stops.length; i += together, together = Math.min(4 * together, MOST_TOGETHER)) {
                const looks = stops.slice(i, i + together).map((it) => [it, this.lookAfter(it.steps)]);
                if (!this.isPaused) await this.during({ isSilent: true }, () => Promise.all(looks.map(([it, look]) => breakpoints.ask(it, look))));
                for (const [it, look] of looks) {
                    if (this.isPaused && !breakpoints.isKnown(it)) return { steps: it.steps, paused: true };
                    if (this.isChanged) throw new this.logic.MoveFailed("stopped");
                    if (await breakpoints.stops(it, look)) return it;
                }
            }
            return undefined;
        });
    }

    // The last of them that is one to go back to.
    async lastOf(stops, breakpoints) {
        for (const it of stops.reverse()) if (await breakpoints.stoppedAt(it, this.lookAfter(it.steps))) return it;
        return undefined;
    }

    readsAt(stop) {
        return this.readers.includes(stop.pc) && this.isWanted(stop.steps);
    }

    // The addresses of the routines that read.
    get readers() {
        return this.logic.readersOf(this.listing);
    }

    // Whether the line of the read after so many instructions is yet to come.
    isWanted(steps) {
        return this.input.lacks(this.reads.numberAt(steps));
    }

    // Moves on as `go` does, with these breaks, and past each read that has to wait for its line. Answers the stop, or { steps, paused }.
    async forward(go, breakpoints) {
        this.isPaused = this.isChanged = false;
        const from = await this.from();
        for (;;) {
            const here = this.atReader() && this.isWanted(this.state.steps) ? { steps: this.state.steps } : undefined;
            const found = here ?? (await this.moved(go, from, breakpoints));
            if (!here && !this.readsAt(found)) return found;
            await this.stand(found.steps);
            this.client.askForLine();
            if (!this.isPaused) await this.input.more();
            if (this.isPaused) return { steps: found.steps, paused: true };
        }
    }

    // Moves on by so many instructions.
    forwardBy(count) {
        return this.forward(async ({ state }) => ({ steps: state.steps + count }));
    }

    atReader() {
        return this.readers.includes(this.state.registers.pc);
    }

    // Moves in parts of more and more instructions, so that it is known how far a run is that is paused. Where the breaks changed the move is made anew.
    async moved(go, from, breakpoints) {
        const { steps } = this.state;
        let passed = steps, rate = LEAST_RATE;
        for (let part = FIRST_PART; ; part *= PART_GROWS) {
            if (this.isPaused) return { steps: passed, paused: true };
            const budget = Math.min(steps + part, this.cool.steps), begun = performance.now();
            try {
                const found = await this.during({ isStoppable: true }, () => this.part(go, from, breakpoints, budget));
                if (!found.limit || found.steps >= this.cool.steps) return found;
                [passed, rate] = [budget, budget / (performance.now() - begun)];
            } catch (error) {
                if (!(error instanceof this.logic.MoveFailed) || !(this.isPaused || this.isChanged)) throw error;
                const now = Math.max(passed, steps + 1, Math.floor((performance.now() - begun) * rate));
                if (this.isPaused) return this.pausedAt(go, from, breakpoints, now);
                this.isChanged = false;
                part = FIRST_PART / PART_GROWS;
            }
        }
    }

    // A part of a move. Where breaks are open the run goes past them, so its output is told once it is known that it does not stop there.
    async part(go, from, breakpoints, budget) {
        const breaks = this.allBreaks(breakpoints);
        const found = await this.during({ isSilent: breaks.areOpen }, () => go(from, breaks, { budget }));
        if (breaks.areOpen && found.limit) await this.logic.State.after(found.steps);
        return found;
    }

    // Where a run stands that was paused after so many instructions: no further than at its first stop.
    async pausedAt(go, from, breakpoints, budget) {
        const found = await this.part(go, from, breakpoints, budget);
        return found.limit && found.steps < this.cool.steps ? { steps: found.steps, paused: true } : found;
    }

    // Does a part of a move during which a pause or other breaks stop what runs (to show the state that it leads to takes no longer than it did), or
    // during which the output of what runs is not told.
    async during(how, part) {
        const { isStoppable, isSilent } = this;
        Object.assign(this, how);
        try {
            return await part();
        } finally {
            Object.assign(this, { isStoppable, isSilent });
        }
    }

    // Where a move back leads. What it runs is not told: it may go a little further than here.
    async backward(find, breakpoints) {
        const from = await this.from(), breaks = { ...breakpoints.breaks, last: (stops) => this.lastOf(stops, breakpoints) };
        return this.during({ isStoppable: true, isSilent: true }, () => find(from, breaks));
    }

    // Has a move that goes on take up other breaks.
    changeBreaks() {
        this.isChanged = true;
        if (this.isStoppable) this.cool.stop();
    }

    pause() {
        this.isPaused = true;
        this.input.leave();
        if (this.isStoppable) this.cool.stop();
    }

    // The first line of the first method, or where the run ends before.
    async entry() {
        const { toFirstLine, NO_BREAKS, State } = this.logic;
        return toFirstLine({ ...this.view, state: await State.after(0), frames: [] }, NO_BREAKS);
    }

    // A line of input, or its end. A run without breaks reads it itself.
    give(line) {
        if (line === "^D") this.input.end();
        else this.input.give(line);
        this.cool.pass(line === "^D" ? undefined : `${line}\n`);
    }

    // To the end, without breaks: the status.
    async whole() {
        const { status, stopped, notes } = await this.cool.whole((bytes, before) => this.tell(bytes, before));
        if (stopped) throw new this.logic.MoveFailed("stopped");
        return { status, notes };
    }

    end() {
        this.isPaused = true;
        this.input.leave();
        this.cool.stop();
        this.program.remove();
    }
}

module.exports = { Debuggee };
