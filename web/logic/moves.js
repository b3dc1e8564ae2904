// Steps of the debugger. Each run of a program is the same, so a number identifies a state of the machine: the count of instructions executed since the
// start. To read a state, or to move, the script runs the program again from the start by `debug`. Therefore a move can also go back.
//
// The user of this script must set the function debug(lines, wanted, { seen, budget }). It runs a script of these lines and returns { notes, output }: the
// first `wanted` notes, and the output up to the last one. It calls `seen` with each note; if `seen` returns true, the remaining notes are not needed. It
// executes at most `budget` instructions.
"use strict";

let debug;

const MOST_SCRIPT_BYTES = 65_000, MOST_STEP = 1_000_000_000, USUAL_STOPS = 40;
// A state reads memory in blocks, each by one line of a script.
const MOST_BLOCKS = 2500, MOST_READS = 12, BLOCK_WORDS = 16, BLOCK_BYTES = 4 * BLOCK_WORDS, STACK_BLOCKS = 32, LOW_STACK = 0x70000000;
const MOST_ADDRESS = 0xffffffff;
// The names of the registers, in the order of `regs`.
const REGISTERS = "pc zero at v0 v1 a0 a1 a2 a3 t0 t1 t2 t3 t4 t5 t6 t7 s0 s1 s2 s3 s4 s5 s6 s7 t8 t9 k0 k1 gp sp fp ra".split(" ");

const hex = (number) => `0x${(number >>> 0).toString(16).padStart(8, "0")}`;

class MoveFailed extends Error {}

function linesTo(steps) {
    const lines = [];
    for (let left = steps; left > 0; left -= MOST_STEP) lines.push(`step ${Math.min(left, MOST_STEP)}`);
    return lines;
}

// Parses a note of `step` or `run` to { steps, pc }. `pc` is undefined if the program has ended.
function reached(note) {
    const [, pc, steps] = /^(?:at (0x\w+)|ended) after (\d+)$/.exec(note);
    return { steps: Number(steps), pc: pc === undefined ? undefined : Number(pc) };
}

// Parses one register, or all, from a note of `regs`.
const registerIn = (note, name) => parseInt(note.slice(5 + 9 * REGISTERS.indexOf(name)).slice(0, 8), 16);
const registersIn = (note) => Object.fromEntries(REGISTERS.map((it) => [it, registerIn(note, it)]));

// Returns the notes of `lines` after this number of instructions: { steps, pc, notes, output }, with the output up to there. Requests that are made at the
// same time share one run, if they fit into one script. Then `output` is that of the last request.
let waitingLooks = [];
function noted(steps, lines) {
    return new Promise((answer, fail) => {
        waitingLooks.push({ steps, lines, answer, fail });
        if (waitingLooks.length === 1) Promise.resolve().then(runWaiting);
    });
}

function runWaiting() {
    const all = waitingLooks.sort((a, b) => a.steps - b.steps), parts = [[]];
    waitingLooks = [];
    for (const it of all) {
        const count = parts.at(-1).reduce((sum, { lines }) => sum + lines.length + 2, 0);
        if (count + it.lines.length > MOST_BLOCKS && count > 0) parts.push([]);
        parts.at(-1).push(it);
    }
    return parts.reduce((before, part) => before.then(() => runPart(part)), Promise.resolve());
}

async function runPart(part) {
    const moves = part.map((it, i) => linesTo(it.steps - (i > 0 ? part[i - 1].steps : 0)));
    const lines = part.flatMap((it, i) => [...moves[i], ...it.lines]);
    try {
        const { notes, output } = await debug(lines, lines.length);
        let at = 0, last = { steps: 0, pc: 0 };
        part.forEach((it, i) => {
            const begin = at + moves[i].length;
            if (moves[i].length > 0) last = reached(notes[begin - 1]);
            at = begin + it.lines.length;
            it.answer({ ...last, notes: notes.slice(begin, at), output });
        });
    } catch (error) {
        for (const it of part) it.fail(error);
    }
}

const wordsLine = (from) => `words ${hex(from)} ${BLOCK_WORDS}`;

// The state after a number of instructions, or at the end if the program ended before. The state reads words of memory on demand: `peek` returns
// undefined for a word that is not yet read, and null for a word that cannot be read.
class State {
    words = new Map();
    wanted = new Set();
    used = new Set();

    // Reads the state. `before` is an earlier state: the blocks that it used are read at once, because most views use the same ones.
    static async after(steps, before) {
        const state = new State();
        const blocks = before ? [...before.used].slice(0, MOST_BLOCKS - 1) : [];
        const { notes, output, ...last } = await noted(steps, ["regs", ...blocks.map(wordsLine)]);
        Object.assign(state, { steps: last.steps, ended: last.pc === undefined, registers: registersIn(notes[0]), output });
        state.takeUp(notes.slice(1));
        return state;
    }

    // Stores the words of `words` notes. If a word of a block cannot be read, the words behind it cannot either.
    takeUp(notes) {
        for (const it of notes) {
            const from = parseInt(it.slice(2, 10), 16), words = it.slice(12).split(" ");
            for (let i = 0; i < BLOCK_WORDS; i += 1) this.words.set(from + 4 * i, words[i]?.startsWith("0x") ? parseInt(words[i].slice(2), 16) : null);
        }
    }

    peek(address) {
        const block = (address >>> 0) - ((address >>> 0) % BLOCK_BYTES);
        const found = this.words.get(address >>> 0);
        if (found === undefined) this.wanted.add(block);
        this.used.add(block);
        return found;
    }

    // Reads the blocks that `peek` asked for. For the stack it also reads the blocks behind them, more in each round, because they have the frames of callers.
    async read(round = 0) {
        const blocks = new Set(this.wanted), ahead = Math.min(STACK_BLOCKS << round, MOST_BLOCKS);
        for (const from of this.wanted) if (from >= LOW_STACK) for (let i = 1; i < ahead; i += 1) blocks.add(from + BLOCK_BYTES * i);
        const lacking = [...blocks].filter((it) => !this.words.has(it) && it <= MOST_ADDRESS).slice(0, MOST_BLOCKS);
        const { notes } = await noted(this.steps, lacking.map(wordsLine));
        this.takeUp(notes);
    }

    // Calls `compute` again until all words that it peeks at are read (at most MOST_READS rounds), and returns its last result.
    async settled(compute) {
        for (let round = 0; ; round += 1) {
            this.wanted.clear();
            const result = compute(this);
            if (this.wanted.size === 0 || round === MOST_READS) return result;
            await this.read(round);
        }
    }
}

// Runs on from a state to the first stop at one of the addresses for which `accept` returns a value, and returns this value. At the end of the run it
// returns { steps, ended }, and at the end of the budget { steps, limit }. A stop has steps, pc, and registers, which is a note of `regs`.
// The first script contains `stops` stops, and later ones more. After each script `settle` may replace the result.
async function runOn(steps, addresses, accept, { tellProgress = () => {}, budget, settle = (found) => found, stops = USUAL_STOPS } = {}) {
    const breaks = [...new Set(addresses)].map((it) => `break ${hex(it)}`);
    const size = breaks.length * "break 0x00000000\n".length + 100;
    const most = Math.floor((MOST_SCRIPT_BYTES - size) / "run\nregs\n".length);
    if (most < 10) throw new MoveFailed("The program has too many lines for one script of the debugger: set a break at one of them.");
    for (let from = steps, count = stops; ; count = Math.min(most, count * 4)) {
        const moves = linesTo(from), runs = Math.min(count, most);
        let passed = 0, stop, found;
        const seen = (note) => {
            passed += 1;
            if (passed <= moves.length) return false;
            if ((passed - moves.length) % 2 === 1) {
                stop = reached(note);
                if (stop.pc === undefined) found = { steps: stop.steps, ended: true };
                else if (stop.steps === from) found = { steps: from, limit: true };
                from = stop.steps;
            } else found = accept({ ...stop, registers: note });
            return found !== undefined;
        };
        await debug([...moves, ...breaks, ...Array(runs).fill("run\nregs")], moves.length + 2 * runs, { seen, budget });
        const settled = await settle(found);
        if (settled) return settled;
        tellProgress(from);
    }
}
