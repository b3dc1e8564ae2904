// Finds the errors of a large program by the command `session` (docs/session.md), which type-checks again only the features that an edit may
// affect. The session runs in a separate worker if WebAssembly may wait for input. Otherwise, and if the session has no answer, faults.js calls `check`.
"use strict";

// The least number of characters for which a session is faster than a new check.
const LEAST_LETTERS = 16_384, LEAST_PIECE = 4096, MOST_PIECES = 32;
// The number of times that a session may end without a reply. After that, no session is started.
const MOST_ENDS = 5;

class Session {
    runner = new Runner();
    pieces = new Pieces(LEAST_PIECE, MOST_PIECES);
    ends = 0;
    waits = false;

    // The faults of the files. The promise is of undefined if the session is not ready, or the files are too many or too large; then the caller runs `check`.
    async faults(all) {
        const letters = all.reduce((sum, it) => sum + it.text.length, 0);
        if (!canSuspend() || letters < LEAST_LETTERS || this.ends === MOST_ENDS) return undefined;
        if (!this.runner.runs) return void this.begin();
        const bytes = all.reduce((sum, it) => sum + encode(it.text).length, 0), pieces = this.pieces.of(new Map(all.map((it) => [it.name, it.text])));
        if (!this.waits || pieces.length > MOST_HELD_FILES || bytes > MOST_HELD_BYTES) return undefined;
        return this.placed(await this.ask(this.held.edits(new Map(pieces.map((it) => [it.key, it.data])))), pieces);
    }

    begin() {
        const decoder = new TextDecoder();
        this.held = new HeldFiles((text) => encode(text).length);
        this.said = "";
        const pieces = (parts) => parts.forEach((it) => it.to === 1 && (this.said += decoder.decode(it.bytes, { stream: true })));
        this.runner.run(["session"], new Map(), { asks: true, pieces, wantsInput: () => this.heard() }).then(() => this.over());
    }

    // Called when the session waits for input: it has read all commands and written its whole reply.
    heard() {
        this.waits = true;
        if (this.answer) (this.ends = 0), this.answer(this.said);
        this.answer = undefined;
        this.said = "";
    }

    over() {
        this.ends += 1;
        this.waits = false;
        this.answer?.(undefined);
        this.answer = undefined;
    }

    // Sends these commands and a check. It returns a promise of the reply, or of undefined if the session ends.
    ask(commands) {
        this.waits = false;
        this.runner.give(encode(`${commands}check\n`));
        return new Promise((answer) => (this.answer = answer));
    }

    // The faults of a reply, each with its file and its line in the file.
    placed(reply, pieces) {
        if (reply === undefined) return undefined;
        const { keys } = this.held;
        const rows = reply.split("\n").slice(1, -1).map((it) => {
            const [, name, line, kind, words] = /^([^:]*):(\d+): ([A-Z]\d+): (.*)$/.exec(it);
            return [keys.get(name), Number(line), kind, words];
        });
        return faultsOfFiles(rows, pieces).map(([file, line, kind, words]) => ({ file, line, words: `${kind}: ${words}` }));
    }
}
