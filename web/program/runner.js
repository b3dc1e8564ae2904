// Starts the page's worker, which executes one run of the program `cool` at a time. To stop a run the page ends the worker. The next run starts a new one.
"use strict";

const { load, canSuspend } = coolProgram();

const STATUSES = {
    0: "ended", 1: "has faults", 2: "bad command line", 3: "ended by an error", 4: "heap used up", 5: "stack used up", 6: "step limit", 7: "input failed",
    8: "output too long", 9: "out of memory", 10: "files too large", 11: "machine trap", 12: "bad script",
};

const workerAddress = URL.createObjectURL(new Blob([`${coolProgram}\n${coolWorker}\ncoolWorker();`], { type: "text/javascript" }));
let compiledModule;

class Runner {
    jobs = 0;

    // Takes a function that returns the module. It is called when a worker is started.
    constructor(module = () => compiledModule) {
        this.module = module;
    }

    // Runs the program with these arguments. `files` maps names to bytes. `more` may have
    //   input       the bytes that are given beforehand
    //   asks        whether the run asks for lines behind them, by `wantsInput`, which `give` answers
    //   pieces      called with each piece of output: { to: 1 for output or 2 for notes, bytes }
    //   notes       how many notes are wanted: the run ends after the last of them, and the result has `notes` and `output` as texts
    // It returns a promise of the result: `time` in milliseconds, and one of { status, stopped, broken, killed }, which says how the run ended.
    run(words, files, more = {}) {
        this.stop();
        this.worker ??= this.made();
        const job = (this.jobs += 1);
        return new Promise((answer) => {
            this.answer = answer;
            this.worker.onmessage = ({ data }) => {
                if (data.job !== job) return;
                if (data.pieces) more.pieces?.(data.pieces);
                if (data.wants) more.wantsInput?.();
                if (data.time === undefined) return;
                this.answer = undefined;
                answer(data);
            };
            const { input = new Uint8Array(0), asks = false, notes } = more;
            this.worker.postMessage({ job, words, files, input, asks, notes });
        });
    }

    made() {
        const worker = new Worker(workerAddress);
        worker.postMessage({ module: this.module() });
        return worker;
    }

    // Makes the engine compile the program with optimizations, once for all workers.
    warm() {
        this.worker ??= this.made();
        this.worker.postMessage({ warm: true });
    }

    // Gives these bytes to the run that asked for input, or null at the end of the input.
    give(line) {
        this.worker.postMessage({ line });
    }

    get runs() {
        return this.answer !== undefined;
    }

    // Ends the current run. Its promise gets { killed: true }.
    stop() {
        if (!this.runs) return;
        this.worker.terminate();
        this.worker = undefined;
        const answer = this.answer;
        this.answer = undefined;
        answer({ killed: true, notes: "", output: "" });
    }
}

// A text that says how a run ended. It is undefined if the run was killed, or stopped after the last wanted note.
function endWords(came) {
    if (came.broken !== undefined) return came.broken;
    return came.status === undefined ? undefined : STATUSES[came.status];
}
