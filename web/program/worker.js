// The code of a worker of the page: it gets a message that describes a run, runs the program, and posts the results. The whole code is one function that uses
// only `coolProgram` from outside itself, so that the page can make a worker from the texts of both.
"use strict";

function coolWorker() {
    const { run, warm, why, Stopped, canSuspend } = coolProgram();
    // Output is posted in pieces of at least this number of bytes, or after this number of milliseconds.
    const PIECE_BYTES = 65536, PIECE_TIME = 50;
    // A write past this many bytes of output and notes fails, and the run ends with status 8. If notes are wanted, only the last output is kept.
    const MOST_BYTES = 8 << 20, KEPT_BYTES = 16384;

    let module;
    let answerInput;

    class WantsInput extends Stopped {}

    // Collects the output of a run into pieces. Each note is one piece, and consecutive writes of output are joined to one piece.
    class Pieces {
        constructor(post) {
            this.post = post;
            this.pieces = [];
            this.output = new Uint8Array(PIECE_BYTES);
            this.held = this.total = this.writes = this.known = 0;
            this.last = performance.now();
        }

        // Begins the run again. The run repeats its earlier writes, which `add` then ignores.
        again() {
            this.known = Math.max(this.known, this.writes);
            this.writes = 0;
        }

        add(to, bytes) {
            this.writes += 1;
            if (this.writes <= this.known) return true;
            if (this.total + bytes.length > MOST_BYTES) return false;
            this.total += bytes.length;
            if (to === 1 && this.held + bytes.length <= PIECE_BYTES) {
                this.output.set(bytes, this.held);
                this.held += bytes.length;
            } else {
                this.close();
                this.pieces.push({ to, bytes });
            }
            if (this.held + bytes.length > PIECE_BYTES || performance.now() - this.last > PIECE_TIME) this.flush();
            return true;
        }

        close() {
            if (this.held > 0) this.pieces.push({ to: 1, bytes: this.output.slice(0, this.held) });
            this.held = 0;
        }

        flush() {
            this.close();
            if (this.pieces.length > 0) this.post({ pieces: this.pieces });
            this.pieces = [];
            this.last = performance.now();
        }

        end() {
            this.flush();
            return {};
        }
    }

    // Keeps the notes up to the last one that is wanted, and the last part of the output before it.
    class Notes {
        constructor(wanted) {
            this.wanted = wanted;
            this.notes = [];
            this.output = [];
            this.held = this.dropped = 0;
        }

        add(to, bytes) {
            if (to === 1) this.keep(bytes);
            else this.notes.push(bytes);
            if (this.notes.length === this.wanted) throw new Stopped();
            return true;
        }

        keep(bytes) {
            this.output.push(bytes);
            this.held += bytes.length;
            while (this.held - this.output[0].length >= KEPT_BYTES) {
                this.dropped += this.output[0].length;
                this.held -= this.output.shift().length;
            }
        }

        flush() {}

        end() {
            const text = (parts) => {
                const decoder = new TextDecoder();
                return parts.map((it) => decoder.decode(it, { stream: true })).join("") + decoder.decode();
            };
            return { notes: text(this.notes), output: (this.dropped > 0 ? "…" : "") + text(this.output) };
        }
    }

    const joined = (one, other) => {
        const both = new Uint8Array(one.length + other.length);
        both.set(one);
        both.set(other, one.length);
        return both;
    };

    // Asks the page for a line, and returns a promise of bytes, or of null at the end of the input.
    function asked(post, taker) {
        taker.flush();
        post({ wants: "input" });
        return new Promise((answer) => (answerInput = answer));
    }

    // Executes one run and returns a promise of its status. If the given input is used up, it asks for a line, or throws WantsInput if the module cannot wait.
    function once(job, post, taker) {
        let left = job.input;
        const given = (most) => {
            const part = left.subarray(0, most);
            left = left.subarray(part.length);
            return part;
        };
        const input = (most) => {
            if (left.length > 0 || !job.asks) return given(most);
            if (!canSuspend()) throw new WantsInput();
            return asked(post, taker).then((line) => {
                if (line === null) job.asks = false;
                else left = line;
                return given(most);
            });
        };
        return run(module, { words: job.words, file: (name) => job.files.get(name), input, write: (to, bytes) => taker.add(to, bytes) });
    }

    // Executes a job. If the module cannot wait for a line, the run ends, and starts again with the line. Each run with the same input is the same.
    async function start(job) {
        const post = (it) => self.postMessage({ job: job.job, ...it });
        const taker = job.notes === undefined ? new Pieces(post) : new Notes(job.notes);
        const begun = performance.now();
        const end = (it) => post({ ...taker.end(), ...it, time: performance.now() - begun });
        for (;;) {
            try {
                return end({ status: await once(job, post, taker) });
            } catch (error) {
                if (!(error instanceof WantsInput)) return end(error instanceof Stopped ? { stopped: true } : { broken: why(error) });
                const line = await asked(post, taker);
                if (line === null) job.asks = false;
                else job.input = joined(job.input, line);
                taker.again();
            }
        }
    }

    self.onmessage = ({ data }) => {
        if (data.module !== undefined) module = data.module;
        else if (data.warm) warm(module);
        else if (data.line !== undefined) answerInput(data.line);
        else start(data);
    };
}
