// Runs the extension of VS Code without VS Code: node vscode.cjs EXTENSION PROGRAM FILE writes what it shows of the file, and of it after an edit.
const Module = require('module');
const fs = require('fs');
const path = require('path');
const { pathToFileURL } = require('url');
const [extension, program, file] = process.argv.slice(2);

const providers = {}, handlers = {}, problems = [];
const disposable = { dispose() {} };
const on = (name) => (handler) => ((handlers[name] = handler), disposable);
const document = {
  uri: { toString: () => pathToFileURL(file).href, fsPath: file }, languageId: 'cool', version: 1, text: fs.readFileSync(file, 'utf8'),
  getText() { return this.text; },
};
let told;
class EventEmitter { constructor() { this.event = (hear) => ((this.hear = hear), disposable); } fire(it) { this.hear(it); } }
class Value { constructor(...parts) { Object.assign(this, parts); } }
const provider = (kind) => (_, given) => ((providers[kind] = Object.values(given)[0]), disposable);
const stub = {
  EventEmitter, Range: Value, Location: Value, DiagnosticRelatedInformation: Value, Hover: Value, MarkdownString: Value,
  Diagnostic: class extends Value { get message() { return this[1]; } },
  DocumentSymbol: Value, CompletionItem: Value, SnippetString: Value, DocumentHighlight: Value, CodeAction: Value,
  SignatureHelp: Value, SignatureInformation: Value, ParameterInformation: Value, TextEdit: { replace: (...edit) => edit },
  CodeActionKind: { QuickFix: 'quickfix' }, DebugAdapterExecutable: Value, CustomExecution: Value, Task: Value, TaskScope: { Workspace: 2 },
  tasks: { registerTaskProvider: (type, provider) => ((providers.tasks = provider), disposable), executeTask: (task) => task },
  commands: { registerCommand: (name, act) => ((providers[name] = act), disposable) },
  debug: {
    registerDebugAdapterDescriptorFactory: (type, factory) => ((providers.adapter = factory), disposable),
    registerDebugConfigurationProvider: (type, provider) => ((providers.launches = provider), disposable),
  },
  WorkspaceEdit: class { constructor() { this.edits = []; } replace(...edit) { this.edits.push(edit); } },
  Uri: { parse: (text) => text },
  languages: {
    createDiagnosticCollection: () => ({ set: (_, found) => told(found), clear() {}, dispose() {} }),
    registerHoverProvider: provider('hover'), registerDefinitionProvider: provider('definition'),
    registerReferenceProvider: provider('references'), registerDocumentSymbolProvider: provider('symbols'),
    registerCompletionItemProvider: provider('completion'), registerRenameProvider: provider('rename'),
    registerCodeActionsProvider: provider('actions'),
    registerDocumentHighlightProvider: provider('highlights'), registerSignatureHelpProvider: provider('signatures'),
    registerDocumentFormattingEditProvider: provider('formatting'),
  },
  window: {
    activeTextEditor: { document }, showTextDocument: (shown) => shown.content.split('\n').length,
    createOutputChannel: () => ({ append: (text) => problems.push(text), dispose() {} }),
    showErrorMessage: (text) => problems.push(text),
  },
  workspace: {
    openTextDocument: (made) => made, textDocuments: [document],
    workspaceFolders: undefined,
    getConfiguration: () => ({ get: () => program }),
    createFileSystemWatcher: () => ({ onDidChange: on('a'), onDidCreate: on('b'), onDidDelete: on('c'), dispose() {} }),
    onDidOpenTextDocument: on('open'), onDidChangeTextDocument: on('change'), onDidCloseTextDocument: on('close'),
  },
};
const load = Module._load;
Module._load = (name, ...rest) => (name === 'vscode' ? stub : load(name, ...rest));

const next = (act) => new Promise((answer) => ((told = answer), act()));
const GREETING = 'class Main inherits IO { main() : Object { { out_string("who? "); out_string("hi ".concat(in_string()).concat("\\n")); } }; };\n';

// The output of a task in its terminal after this text is typed, and its status.
async function terminal(task, typed) {
  const shown = await task[4][0](), said = [];
  shown.onDidWrite((text) => (said.push(text), text.includes('?') && shown.handleInput(typed)));
  const status = new Promise((answer) => shown.onDidClose(answer));
  shown.open();
  return { status: await status, said: said.join('') };
}

const span = (r) => `${r[0]}:${r[1]}-${r[2]}:${r[3]}`;

(async () => {
  const { activate, deactivate } = require(extension);
  let found = await next(() => activate({ subscriptions: [] }));
  const hovered = providers.hover(document, { line: 1, character: 23 });
  found = await next(() => {}); // explained
  found.forEach((f) => console.log(span(f[0]), f.code, f[1], f[2]));
  const hover = await hovered;
  const [facts, rule = ''] = hover[0][0].split('\n\nThe rule ');
  console.log(...facts.split('\n').slice(2));
  console.log((/^- `(.*)` does not hold$/m.exec(rule) ?? [])[1]);
  const mends = await providers.actions(document, { start: { line: 1, character: 23 }, end: { line: 1, character: 23 } }, { diagnostics: found });
  mends.forEach((m) => console.log('mend', m[0], m[1], m.isPreferred, m.diagnostics.length, ...m.edit.edits.map((e) => `${span(e[1])} ${e[2]}`)));
  for (const kind of ['definition', 'references']) console.log(kind, ...(await providers[kind](document, { line: 0, character: 7 })).map((l) => span(l[1])));
  for (const s of await providers.symbols(document)) console.log(s[0], s[2], span(s[3]), ...s.children.map((c) => `${c[0]} ${c[2]}`));
  console.log('completion', ...(await providers.completion(document, { line: 4, character: 18 })).map((c) => c[0]));
  console.log('highlights', ...(await providers.highlights(document, { line: 4, character: 8 })).map((h) => `${span(h[0])} ${h[1]}`));
  const renamed = await providers.rename(document, { line: 4, character: 8 }, 'Later');
  console.log('rename', ...renamed.edits.map((e) => `${span(e[1])} ${e[2]}`));
  await providers.rename(document, { line: 4, character: 8 }, 'later').catch((error) => console.log('refused:', error.message.slice(0, 19)));
  const [command, words] = Object.values(providers.adapter.createDebugAdapterDescriptor());
  console.log('debug', command, path.relative(extension, words[0]), fs.existsSync(words[0]));
  const launch = providers.launches.resolveDebugConfiguration(undefined, {});
  console.log('launch', launch.type, launch.request, launch.program, launch.cool === program);
  const run = await providers['cool.run'](), ran = await terminal(run, '');
  console.log('run', run[0].task, run[2], run[5], ran.status, ran.said.split(': ').slice(-2)[0]);
  fs.writeFileSync(file, GREETING);
  const greeted = await terminal(providers.tasks.resolveTask({ definition: { type: 'cool', task: 'run' } }), 'Anx\x7f\r');
  console.log('greeted', greeted.status, JSON.stringify(greeted.said));
  console.log('tasks', ...providers.tasks.provideTasks().map((it) => it[0].task), await providers['cool.first']());
  document.version = 2;
  document.text = document.text.replace(' <- true', ' ');
  found = await next(() => handlers.change({ document }));
  console.log('formatting', ...(await providers.formatting(document)).map((e) => `${span(e[0])} ${JSON.stringify(e[1])}`));
  document.version = 3;
  document.text = 'class Main { f(a : Int) : Int { a };\n main() : Int { f(wh';
  await next(() => handlers.change({ document }));
  const help = await providers.signatures(document, { line: 1, character: 18 });
  console.log('signature', help.signatures[0][0], help.signatures[0].parameters[0][0], help.activeParameter);
  console.log('form', ...(await providers.completion(document, { line: 1, character: 20 })).map((c) => JSON.stringify(c.insertText[0])));
  console.log(found.length, 'told;', problems.length, 'problems', ...problems);
  deactivate();
})();
