// Runs the program `cool`, a WebAssembly module. The module imports six functions: five of its host (`open`, `close`, `read`, `write` and `word` of
// `web/host.c`), and `deeper`, which continues deep recursion (`web/lowering/deepen.py`). A run takes its arguments, files and input, and passes on what it
// writes. Each run has a new instance of the module, so that no state remains from an earlier run.
//
// The whole code is one function that uses nothing from outside itself, so that the page can make a worker from its text.
"use strict";

function coolProgram() {
    // Error numbers of the C library on Linux.
    const NO_ENTRY = 2, IO_ERROR = 5, BAD_FILE = 9, IS_FOLDER = 21, NO_SPACE = 28;
    const FIRST_FILE = 3;

    // The functions that a run is given throw Stopped to end it.
    class Stopped extends Error {}

    // The functions that the module imports, for one run. Addresses and lengths are BigInts.
    class Host {
        constructor(of) {
            this.of = of;
            this.words = ["cool", ...of.words].map((it) => new TextEncoder().encode(it));
            this.opened = [];
        }

        // The bytes of the memory from an address on. Call it again after each call of the module, because the buffer changes when the memory grows.
        bytes(address, length) {
            return new Uint8Array(this.exports.memory.buffer, Number(address), length);
        }

        put(address, given) {
            this.bytes(address, given.length).set(given);
            return BigInt(given.length);
        }

        open(address) {
            const all = this.bytes(address);
            const bytes = this.of.file(new TextDecoder().decode(all.slice(0, all.indexOf(0))));
            return bytes === undefined ? -NO_ENTRY : this.opened.push({ bytes, at: 0 }) - 1 + FIRST_FILE;
        }

        read(file, address, most) {
            try {
                return file === 0 ? this.readInput(address, most) : this.readFile(file, address, most);
            } catch (error) {
                if (error instanceof Stopped) throw error;
                return BigInt(-IO_ERROR);
            }
        }

        readInput(address, most) {
            const given = this.of.input(most);
            return given instanceof Promise ? given.then((it) => this.put(address, it)) : this.put(address, given);
        }

        readFile(file, address, most) {
            const from = this.opened[file - FIRST_FILE];
            if (from === undefined) return BigInt(-BAD_FILE);
            if (from.bytes === "folder") return BigInt(-IS_FOLDER);
            const given = from.bytes.subarray(from.at, from.at + most);
            from.at += given.length;
            return this.put(address, given);
        }

        write(to, address, count) {
            return this.of.write(to, this.bytes(address, Number(count)).slice()) === false ? BigInt(-NO_SPACE) : count;
        }

        word(i, address, most) {
            const word = this.words[Number(i)];
            if (word === undefined) return -1n;
            return word.length > Number(most) ? -2n : this.put(address, word);
        }

        // Continues deep recursion. If the module can wait, the call runs on a new stack, and the calling stack is left before.
        deeper(number, at) {
            if (!canSuspend()) return this.exports.cool_enter(number, at);
            return Promise.resolve().then(() => WebAssembly.promising(this.exports.cool_enter)(number, at));
        }

        imports() {
            const waits = (call) => (canSuspend() ? new WebAssembly.Suspending(call) : call);
            return {
                open: (address) => this.open(address),
                close: () => 0,
                read: waits((file, address, most) => this.read(file, address, Number(most))),
                write: (to, address, count) => this.write(to, address, count),
                word: (i, address, most) => this.word(i, address, most),
                deeper: waits((number, at) => this.deeper(number, at)),
            };
        }
    }

    // Runs the program once, and returns a promise of its status. `of` has:
    //   words    the arguments of the command line, after the program's name
    //   file     (name) => bytes, "folder", or undefined if there is no such file
    //   input    (most) => at most so many bytes, none of them at the end; or a promise of them if canSuspend()
    //   write    (1 for output or 2 for notes, bytes) => undefined, or false if the write fails
    // `input` and `write` may throw Stopped to end the run.
    async function run(module, of) {
        const host = new Host(of);
        host.exports = new WebAssembly.Instance(module, { host: host.imports() }).exports;
        const main = host.exports.cool_main;
        // A function that can wait gets a stack that is larger than a worker's.
        return canSuspend() ? WebAssembly.promising(main)() : main();
    }

    const canSuspend = () => "Suspending" in WebAssembly;

    // Makes the engine compile the machine's loops with optimizations. Without this call, a loop that began in unoptimized code stays in it.
    // Call it once, in a worker that has nothing else to do. It takes some milliseconds.
    async function warm(module) {
        const texts = {
            "warm.cl": "class Main { i : Int; main() : Object { while i < 3000 loop i <- i + 1 pool }; };",
            script: "break Main.main\nstep 50000\nrun\n",
        };
        const file = (name) => new TextEncoder().encode(texts[name]);
        await run(module, { words: ["debug", "script", "warm.cl"], file, input: () => new Uint8Array(0), write() {} });
    }

    // Unpacks the text of module.js and returns a promise of the module. It fails with an explanation if the browser lacks a feature for this.
    async function load(text) {
        try {
            const zipped = Uint8Array.from(atob(text), (it) => it.charCodeAt(0));
            const bytes = new Blob([zipped]).stream().pipeThrough(new DecompressionStream("gzip"));
            return await WebAssembly.compile(await new Response(bytes).arrayBuffer());
        } catch (error) {
            throw new Error(`This browser cannot load the program, which takes WebAssembly and streams as browsers have them since 2023 (${error.message})`);
        }
    }

    // The reason why an engine ended a run, in a line. An engine reports an exhausted stack only by the message of an error, and messages differ.
    function why(error) {
        if (/call stack|too much recursion|stack overflow/i.test(error.message)) return "nested too deep for this browser's stack";
        if (/memory/i.test(error.message) && error instanceof RangeError) return "this browser has no memory left for a run";
        return `the program was aborted (${error.message})`;
    }

    return { run, warm, load, why, Stopped, canSuspend };
}

if (typeof module === "object") module.exports = coolProgram();
