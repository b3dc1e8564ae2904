// The debugger's runs in the page: scripts for `debug`, and their output.
"use strict";

const debugged = new Runner();

// The function `debug` that moves.js requires. The worker ends a run after its last note, and posts all notes together at that point.
debug = async (lines, wanted, { seen = () => false, budget = Infinity } = {}) => {
    const all = sources();
    let script = "script";
    while (all.has(script)) script += "'";
    all.set(script, encode(lines.join("\n")));
    const words = ["debug", ...optionWords("debug", { steps: budget }), "--", script, ...fileNames()];
    const came = await debugged.run(words, all, { notes: wanted, input: encode(inputGiven()) });
    if (came.killed) throw new MoveFailed("stopped");
    if (came.broken !== undefined) throw new MoveFailed(came.broken);
    const notes = came.notes.split("\n").slice(0, -1);
    if (notes.length < wanted) throw new MoveFailed(came.status === 1 ? "The program has faults." : endWords(came) ?? "the run ended before this state");
    notes.some(seen);
    return { notes, output: came.output };
};
