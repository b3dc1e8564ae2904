// Handles the messages of an editor: first it updates the errors that it reports, and then it answers requests about them, one after the other. It reads
// messages while programs run.
"use strict";
const { Document, Files, isPath, toPath } = require("../node/files.js");
const { log } = require("../node/log.js");
const { Messages, written } = require("../node/messages.js");
const { LIST, Programs } = require("../node/programs.js");
const { Answers, QUICKFIX } = require("./answers.js");
const { Calls } = require("./calls.js");
const { Classes, Refused } = require("./classes.js");
const { Completions } = require("./completions.js");
const { Checker } = require("./diagnostics.js");
const { Explainer } = require("./explainer.js");
const { Formatter } = require("./formatting.js");
const { removeRooms } = require("./inquiry.js");
const { Marks } = require("./marks.js");
const { Meanings } = require("./meanings.js");
const { Reasons, joined } = require("./reasons.js");
const { Renames } = require("./renames.js");
const { Session } = require("./session.js");
const { Snippets } = require("./snippets.js");

// Milliseconds until stored files are looked at again, where the editor does not tell that they changed.
const LOOK_AGAIN = 2000;
const NO_METHOD = -32601, WRONG_PARAMETERS = -32602, WRONG_REQUEST = -32600, REFUSED = -32803;

// The program `cool` that is named, with which others go.
const namedCool = (named) => named || process.env.COOL || undefined;

class Server {
    // `named` is the program of the command line; `end` is called with the status to end with.
    constructor(named, seconds, output, end, pieces) {
        Object.assign(this, { output, finish: end, watches: false, isDown: false, isGone: false, asked: [] });
        this.documents = new Map(); // by path
        this.files = new Files();
        this.programs = new Programs(this.files);
        this.session = new Session(named, seconds);
        this.explainer = new Explainer(namedCool(named), seconds, () => this.change());
        this.checker = new Checker(this.files, this.programs, this.session, this.explainer, pieces);
        this.told = new Map(); // by URI: { version, notes }
        this.methods = {
            "initialize": (it) => this.initialize(it),
            "initialized": () => this.initialized(),
            "shutdown": () => void (this.isDown = true),
            "textDocument/didOpen": ({ textDocument: it }) => this.set(it.uri, it.version, it.text),
            "textDocument/didChange": ({ textDocument: it, contentChanges }) => this.set(it.uri, it.version, contentChanges.at(-1).text),
            "textDocument/didClose": ({ textDocument: it }) => (this.documents.delete(toPath(it.uri)), this.change()),
            "textDocument/didSave": () => this.change(),
            "workspace/didChangeWatchedFiles": () => this.change(),
            "workspace/didChangeWorkspaceFolders": (it) => this.foldersChanged(it),
        };
        this.questions = this.questionsOf(named, seconds);
    }

    questionsOf(named, seconds) {
        const { files, programs } = this, cool = namedCool(named), marks = new Marks(cool, seconds);
        const reasons = new Reasons(files, programs, marks, cool, seconds);
        const answers = (this.answers = new Answers(files, programs, this.checker, this.told, reasons));
        const classes = new Classes(files, programs), meanings = (this.meanings = new Meanings(files, programs, marks));
        const renames = new Renames(files, programs, meanings), calls = new Calls(files, meanings), completions = new Completions(files, meanings);
        const snippets = (this.snippets = new Snippets(files));
        // Returns a function that answers a request by the first method that has an answer.
        const first = (...all) => async (params) => {
            for (const [it, method] of all) {
                const found = await it[method](params);
                if (found !== undefined && found !== null) return found;
            }
            return null;
        };
        const completion = first([completions, "completion"], [classes, "completion"]);
        return {
            "textDocument/hover": async (it) => (await answers.hover(it)) ?? joined(await meanings.hover(it), await reasons.hover(it)),
            "textDocument/documentSymbol": (it) => answers.symbols(it),
            "textDocument/definition": first([meanings, "definition"], [classes, "definition"]),
            "textDocument/references": first([meanings, "references"], [classes, "references"]),
            "textDocument/documentHighlight": first([meanings, "highlight"], [classes, "highlight"]),
            "textDocument/completion": async (it) => [...((await completion(it)) ?? []), ...snippets.completion(it)],
            "textDocument/signatureHelp": first([calls, "signature"]),
            "textDocument/formatting": new Formatter(named, seconds).of(files, meanings),
            "textDocument/rename": first([renames, "rename"], [classes, "rename"]),
            "textDocument/codeAction": (it) => answers.actions(it),
        };
    }

    // Messages

    // Does what a message asks, and answers it where it is a request. What is nonsense is refused, or logged.
    take(message) {
        const isObject = typeof message === "object" && message !== null && !Array.isArray(message);
        if (!isObject || typeof message.method !== "string") {
            if (!isObject || !("result" in message || "error" in message)) log("a message without a method was skipped");
            return;
        }
        const { method, id } = message, isRequest = typeof id === "string" || typeof id === "number";
        const params = typeof message.params === "object" && message.params !== null && !Array.isArray(message.params) ? message.params : {};
        if (method === "exit") this.end();
        else if (this.isDown) this.answer(isRequest, id, refusal(WRONG_REQUEST, "the server was shut down"));
        else if (Object.hasOwn(this.questions, method)) this.asked.push({ isRequest, id, method, params }), this.change();
        else if (Object.hasOwn(this.methods, method)) this.answer(isRequest, id, outcome(method, this.methods[method], params));
        else if (isRequest) this.answer(true, id, refusal(NO_METHOD, `no such method: ${method}`));
    }

    send(message) {
        this.output.write(written({ jsonrpc: "2.0", ...message }));
    }

    // Sends what answers a request, and logs what was wrong with a notification.
    answer(isRequest, id, answer) {
        if (isRequest) this.send({ id, ...answer });
        else if (answer.error) log(answer.error.message);
    }

    // Ends, and what it started with it.
    end(status = this.isDown ? 0 : 1) {
        if (this.isGone) return;
        this.isGone = true;
        this.session.close();
        this.explainer.close();
        removeRooms();
        this.finish(status);
    }

    // Requests and notifications

    initialize({ workspaceFolders, rootUri, capabilities }) {
        const folders = workspaceFolders?.length > 0 ? workspaceFolders.map((it) => it.uri) : [rootUri ?? ""];
        this.programs.roots = folders.map(toPath).filter(isPath);
        this.snippets.taken = capabilities?.textDocument?.completion?.completionItem?.snippetSupport === true;
        this.watches = capabilities?.workspace?.didChangeWatchedFiles?.dynamicRegistration === true;
        const plain = ["hover", "documentSymbol", "definition", "references", "documentHighlight", "rename", "documentFormatting"];
        const answers = Object.fromEntries(plain.map((it) => [`${it}Provider`, true]));
        return {
            capabilities: {
                textDocumentSync: { openClose: true, change: 1, save: { includeText: false } },
                workspace: { workspaceFolders: { supported: true, changeNotifications: true } },
                ...answers,
                completionProvider: { triggerCharacters: ["."] },
                signatureHelpProvider: { triggerCharacters: ["(", ","] },
                codeActionProvider: { codeActionKinds: [QUICKFIX] },
            },
            serverInfo: { name: "cool-lsp" },
        };
    }

    initialized() {
        if (!this.watches) return void this.lookAgain();
        const watchers = ["**/*.cl", `**/${LIST}`].map((globPattern) => ({ globPattern }));
        const watch = { id: "files", method: "workspace/didChangeWatchedFiles", registerOptions: { watchers } };
        this.send({ id: "watch", method: "client/registerCapability", params: { registrations: [watch] } });
    }

    set(uri, version, text) {
        if (typeof text !== "string") throw new TypeError("a document needs a text");
        this.documents.set(toPath(uri), new Document(uri, version, text));
        this.change();
    }

    foldersChanged({ event }) {
        const gone = (event.removed ?? []).map((it) => toPath(it.uri)), added = (event.added ?? []).map((it) => toPath(it.uri));
        this.programs.roots = [...this.programs.roots.filter((it) => !gone.includes(it)), ...added.filter(isPath)];
        this.change();
    }

    // Diagnostics

    lookAgain() {
        this.looks ??= setInterval(() => this.change(), LOOK_AGAIN);
    }

    // Something changed, or is asked: all is found anew, once what is under way is done.
    change() {
        this.isDue = true;
        this.checking ??= this.checks().finally(() => (this.checking = undefined));
    }

    async checks() {
        await undefined; // messages that came at once count at once
        while (this.isDue && !this.isGone) {
            this.isDue = false;
            const questions = this.asked.splice(0);
            try {
                this.files.look(this.documents);
                this.tell(await this.checker.all());
                this.meanings.keep(this.checker.whole());
            } catch (error) {
                log(error.stack); // a defect of the server costs one check, and not the server
            }
            const late = [];
            for (const it of questions) {
                if (this.waits(it)) late.push(it);
                else if (!this.isGone) this.answer(it.isRequest, it.id, await outcomeOf(it.method, this.questions[it.method], it.params));
            }
            this.asked.unshift(...late);
        }
    }

    // Whether a question is answered later, since it is about what is still being asked for.
    waits({ method, params }) {
        const isAbout = method === "textDocument/hover" || method === "textDocument/codeAction";
        return isAbout && outcome(method, (it) => this.answers.waits(it), params).result === true;
    }

    // Tells the diagnostics by path that are other than those told before.
    tell(found) {
        const all = new Map([...found].map(([file, notes]) => [this.files.uri(file), { version: this.files.open.get(file)?.version, notes }]));
        for (const uri of this.told.keys()) if (!all.has(uri)) all.set(uri, { version: undefined, notes: [] });
        for (const [uri, now] of all) {
            const old = this.told.get(uri) ?? { version: undefined, notes: [] };
            if (now.version !== undefined || now.notes.length > 0) this.told.set(uri, now);
            else this.told.delete(uri);
            const { version, notes } = now;
            if (JSON.stringify(now) === JSON.stringify(old)) continue;
            this.send({ method: "textDocument/publishDiagnostics", params: { uri, diagnostics: notes, ...(version !== undefined && { version }) } });
        }
    }
}

const refusal = (code, message) => ({ error: { code, message } });

function refused(method, error) {
    return error instanceof Refused ? refusal(REFUSED, error.message) : refusal(WRONG_PARAMETERS, `${method}: wrong parameters: ${error.message}`);
}

// The result of a function of parameters, or an error if they were wrong. The server continues after any request of an editor.
function outcome(method, answer, params) {
    try {
        return { result: answer(params) ?? null };
    } catch (error) {
        return refused(method, error);
    }
}

async function outcomeOf(method, answer, params) {
    try {
        return { result: (await answer(params)) ?? null };
    } catch (error) {
        return refused(method, error);
    }
}

// Serves an editor up to `exit`, or to the end of what it sends.
function serve(named, seconds, source, sink, pieces) {
    const server = new Server(named, seconds, sink, (status) => process.exit(status), pieces);
    const messages = new Messages((it) => server.take(it));
    source.on("data", (bytes) => messages.add(bytes));
    source.on("end", () => server.end());
    sink.on("error", (error) => {
        log(`the editor is gone: ${error.message}`);
        server.end(1);
    });
    for (const signal of ["SIGTERM", "SIGHUP"]) process.on(signal, () => server.end(1));
    process.on("SIGINT", () => {}); // of the terminal, meant for what runs in the editor
}

module.exports = { serve };
