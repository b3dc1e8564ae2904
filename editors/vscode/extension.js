// Starts cool-lsp for Cool files, and shows its diagnostics and answers; runs the files in a terminal, and debugs them by cool-dap. It uses only VS Code's own
// interface and node.
const vscode = require('vscode');
const { spawn } = require('child_process');
const fs = require('fs');
const path = require('path');
const { StringDecoder } = require('string_decoder');

// The server is inside a package; in a repository or an installation it is beside this folder.
const EDITORS = [path.join(__dirname, 'editors'), path.join(fs.realpathSync(__dirname), '..')].find((it) => fs.existsSync(path.join(it, 'cool-lsp')));
const SERVER = path.join(EDITORS, 'cool-lsp');
const COOL = { language: 'cool' };
const { Messages, written } = require(path.join(EDITORS, 'node', 'messages.js'));
const { find } = require(path.join(EDITORS, 'node', 'program.js'));
const { programsOf } = require(path.join(EDITORS, 'node', 'programs.js'));
// That a program may take to be found.
const MOST_SECONDS = 10;
// VS Code's own program is node where the environment says so.
const AS_NODE = { ELECTRON_RUN_AS_NODE: '1' };
const program = () => vscode.workspace.getConfiguration('cool').get('program');
let server, faults, log, number, waiting;

// Messages

function send(message) {
  if (server) server.stdin.write(written({ jsonrpc: '2.0', ...message }));
}

// A promise of the server's answer: null if there is no server, and an error if the server refuses.
function request(method, params) {
  if (!server) return Promise.resolve(null);
  return new Promise((answer, refuse) => {
    waiting.set((number += 1), (message) => (message && message.error ? refuse(new Error(message.error.message)) : answer(message && message.result)));
    send({ id: number, method, params });
  });
}

function take(message) {
  if (message.method === 'textDocument/publishDiagnostics') show(message.params);
  if (message.method || !waiting.has(message.id)) return;
  waiting.get(message.id)(message);
  waiting.delete(message.id);
}

// Conversions from the protocol to VS Code

const range = (r) => new vscode.Range(r.start.line, r.start.character, r.end.line, r.end.character);
const location = (l) => new vscode.Location(vscode.Uri.parse(l.uri), range(l.range));
const item = (document) => ({ uri: document.uri.toString(), languageId: 'cool', version: document.version, text: document.getText() });
const place = (document, position) => ({ textDocument: { uri: document.uri.toString() }, position: { line: position.line, character: position.character } });

function show({ uri, diagnostics }) {
  faults.set(vscode.Uri.parse(uri), diagnostics.map((d) => {
    const shown = new vscode.Diagnostic(range(d.range), d.message, d.severity - 1);
    shown.source = d.source;
    shown.code = d.code;
    shown.relatedInformation = (d.relatedInformation || []).map((r) => new vscode.DiagnosticRelatedInformation(location(r.location), r.message));
    return shown;
  }));
}

function symbol(s) {
  const shown = new vscode.DocumentSymbol(s.name, '', s.kind - 1, range(s.range), range(s.selectionRange));
  shown.children = s.children.map(symbol);
  return shown;
}

function completion(c) {
  const shown = new vscode.CompletionItem(c.label, c.kind - 1);
  shown.detail = c.detail;
  if (c.insertText) shown.insertText = new vscode.SnippetString(c.insertText);
  return shown;
}

function signatures(found) {
  if (!found) return null;
  const shown = new vscode.SignatureHelp();
  shown.signatures = found.signatures.map((s) => {
    const one = new vscode.SignatureInformation(s.label);
    one.parameters = s.parameters.map((p) => new vscode.ParameterInformation(p.label));
    return one;
  });
  return Object.assign(shown, { activeSignature: found.activeSignature, activeParameter: found.activeParameter });
}

function changed(edit) {
  const shown = new vscode.WorkspaceEdit();
  for (const [uri, edits] of Object.entries(edit ? edit.changes : {})) {
    edits.forEach((e) => shown.replace(vscode.Uri.parse(uri), range(e.range), e.newText));
  }
  return shown;
}

// The code action for an error. It applies to the shown diagnostics with the same message.
function action(found, diagnostics) {
  const shown = new vscode.CodeAction(found.title, vscode.CodeActionKind.QuickFix);
  shown.edit = changed(found.edit);
  shown.diagnostics = diagnostics.filter((d) => found.diagnostics.some((f) => f.code === d.code && f.message === d.message));
  shown.isPreferred = found.isPreferred;
  return shown;
}

// Providers that read a text: meanings, places and an outline.
function readers() {
  const places = (method, more) => async (document, position) =>
    ((await request(method, { ...place(document, position), ...more })) || []).map(location);
  return [
    vscode.languages.registerHoverProvider(COOL, {
      provideHover: async (document, position) => {
        const found = await request('textDocument/hover', place(document, position));
        return found && new vscode.Hover(new vscode.MarkdownString(found.contents.value), range(found.range));
      },
    }),
    vscode.languages.registerDefinitionProvider(COOL, { provideDefinition: places('textDocument/definition') }),
    vscode.languages.registerReferenceProvider(COOL, { provideReferences: places('textDocument/references', { context: { includeDeclaration: true } }) }),
    vscode.languages.registerDocumentHighlightProvider(COOL, {
      provideDocumentHighlights: async (document, position) =>
        ((await request('textDocument/documentHighlight', place(document, position))) || [])
          .map((h) => new vscode.DocumentHighlight(range(h.range), (h.kind || 1) - 1)),
    }),
    vscode.languages.registerDocumentSymbolProvider(COOL, {
      provideDocumentSymbols: async (document) =>
        ((await request('textDocument/documentSymbol', { textDocument: { uri: document.uri.toString() } })) || []).map(symbol),
    }),
  ];
}

// Providers that help to write a text: completions, signatures, layout, new names and edits.
function writers() {
  return [
    vscode.languages.registerCompletionItemProvider(COOL, {
      provideCompletionItems: async (document, position) => ((await request('textDocument/completion', place(document, position))) || []).map(completion),
    }, '.'),
    vscode.languages.registerSignatureHelpProvider(COOL, {
      provideSignatureHelp: async (document, position) => signatures(await request('textDocument/signatureHelp', place(document, position))),
    }, '(', ','),
    vscode.languages.registerDocumentFormattingEditProvider(COOL, {
      provideDocumentFormattingEdits: async (document) =>
        ((await request('textDocument/formatting', { textDocument: { uri: document.uri.toString() }, options: {} })) || [])
          .map((e) => vscode.TextEdit.replace(range(e.range), e.newText)),
    }),
    vscode.languages.registerRenameProvider(COOL, {
      provideRenameEdits: async (document, position, newName) => {
        return changed(await request('textDocument/rename', { ...place(document, position), newName }));
      },
    }),
    vscode.languages.registerCodeActionsProvider(COOL, {
      provideCodeActions: async (document, at, context) => {
        const side = (position) => ({ line: position.line, character: position.character });
        const asked = { range: { start: side(at.start), end: side(at.end) }, context: { diagnostics: [] } };
        return ((await request('textDocument/codeAction', { textDocument: { uri: document.uri.toString() }, ...asked })) || [])
          .map((found) => action(found, context.diagnostics));
      },
    }),
  ];
}

// The server, from the first file of Cool on

function start() {
  [number, waiting] = [0, new Map()];
  const started = (server = spawn(process.execPath, [SERVER, ...(program() ? ['--cool', program()] : [])], { env: { ...process.env, ...AS_NODE } }));
  const messages = new Messages(take);
  started.stdout.on('data', (bytes) => messages.add(bytes));
  started.stderr.on('data', (data) => log.append(data.toString()));
  started.stdin.on('error', () => {});
  started.on('error', (error) => vscode.window.showErrorMessage(`Cool: cool-lsp does not start: ${error.message}`));
  started.on('close', () => {
    if (server !== started) return;
    server = undefined; // the next file that is opened starts it again
    waiting.forEach((answer) => answer(null));
    faults.clear();
  });
  const folders = (vscode.workspace.workspaceFolders || []).map((f) => ({ uri: f.uri.toString(), name: f.name }));
  const completes = { completion: { completionItem: { snippetSupport: true } } };
  const capabilities = { workspace: { didChangeWatchedFiles: { dynamicRegistration: true } }, textDocument: completes };
  request('initialize', { processId: process.pid, rootUri: null, workspaceFolders: folders, capabilities });
  send({ method: 'initialized', params: {} });
  vscode.workspace.textDocuments.forEach((d) => d.languageId === 'cool' && send({ method: 'textDocument/didOpen', params: { textDocument: item(d) } }));
}

function opened(document) {
  if (document.languageId !== 'cool') return;
  if (!server) start();
  else send({ method: 'textDocument/didOpen', params: { textDocument: item(document) } });
}

// Debugging: by the adapter, on the node that VS Code has; and without a launch.json the file that is shown.

const adapter = { createDebugAdapterDescriptor: () => new vscode.DebugAdapterExecutable('node', [path.join(EDITORS, 'cool-dap')]) };

const launches = {
  resolveDebugConfiguration: (_, given) => {
    const shown = vscode.window.activeTextEditor && vscode.window.activeTextEditor.document;
    const isShown = !given.type && shown && shown.languageId === 'cool';
    const made = isShown ? { type: 'cool', request: 'launch', name: 'Cool', program: '${file}', stopOnEntry: true } : given;
    return made.type && program() && !made.cool ? { ...made, cool: program() } : made;
  },
};

// Runs, in a terminal: by tasks, of which the buttons above a text begin one.

// A terminal in which a program runs, which reads what is typed line by line.
class Run {
  constructor(what, file) {
    [this.what, this.file, this.line] = [what, file, ''];
    const [written, closed] = [new vscode.EventEmitter(), new vscode.EventEmitter()];
    Object.assign(this, { written, closed, onDidWrite: written.event, onDidClose: closed.event });
  }

  async open() {
    const cwd = path.dirname(this.file), words = [this.what, ...programsOf(this.file)[0].map((it) => path.relative(cwd, it))];
    const command = await find('cool', program(), MOST_SECONDS).catch((error) => this.end(1, `${error.message}\n`));
    if (!command) return;
    const [own, env] = [[path.join(__dirname, 'run.js'), ...words], { ...process.env, ...AS_NODE }];
    this.child = command === 'module' ? spawn(process.execPath, own, { cwd, env }) : spawn(command, [words[0], '--', ...words.slice(1)], { cwd });
    for (const source of [this.child.stdout, this.child.stderr]) {
      const decoder = new StringDecoder('utf8');
      source.on('data', (bytes) => this.write(decoder.write(bytes)));
    }
    this.child.stdin.on('error', () => {});
    this.child.on('error', (error) => this.end(1, `${error.message}\n`));
    this.child.on('close', (status) => this.end(status === null ? 1 : status, ''));
  }

  write(text) {
    this.written.fire(text.replace(/\n/g, '\r\n'));
  }

  end(status, words) {
    this.write(words);
    this.closed.fire(status);
  }

  close() {
    if (this.child) this.child.kill('SIGKILL');
  }

  handleInput(typed) {
    for (const it of typed.replace(/\r\n?/g, '\n')) {
      if (it === '\x03') this.close();
      else if (it === '\x04') this.child && this.child.stdin.end();
      else if (it === '\x7f') this.line !== '' && ((this.line = [...this.line].slice(0, -1).join('')), this.write('\b \b'));
      else if (it === '\n' || it >= ' ') this.write(it), (this.line += it);
      if (it === '\n' && this.child) this.child.stdin.write(this.line), (this.line = '');
    }
  }
}

const shownFile = () => (vscode.window.activeTextEditor ? vscode.window.activeTextEditor.document.uri.fsPath : '');

function task({ task: what, file, ...more }) {
  const execution = new vscode.CustomExecution(async () => new Run(what, file && file !== '${file}' ? file : shownFile()));
  return new vscode.Task({ type: 'cool', task: what, ...(file && { file }), ...more }, vscode.TaskScope.Workspace, what, 'cool', execution, '$cool');
}

const tasks = {
  provideTasks: () => ['run', 'check'].map((what) => task({ task: what })),
  resolveTask: (given) => task(given.definition),
};

// Does something with the file that is shown, once it is stored.
const begin = (what) => async () => {
  const shown = vscode.window.activeTextEditor && vscode.window.activeTextEditor.document;
  if (!shown || shown.languageId !== 'cool') return vscode.window.showInformationMessage('Cool: open a Cool file (.cl) to run it.');
  if ((shown.isUntitled || shown.isDirty) && !(await shown.save())) return undefined;
  const { document } = vscode.window.activeTextEditor;
  return vscode.tasks.executeTask(task({ task: what, file: document.uri.fsPath }));
};

const FIRST = 'class Main inherits IO {\n  main() : Object {\n    out_string("Hello\\n")\n  };\n};\n';

async function first() {
  return vscode.window.showTextDocument(await vscode.workspace.openTextDocument({ language: 'cool', content: FIRST }));
}

function activate(context) {
  faults = vscode.languages.createDiagnosticCollection('cool');
  log = vscode.window.createOutputChannel('Cool');
  const about = (method, more) => (document) => {
    if (document.languageId !== 'cool') return;
    send({ method, params: { textDocument: { uri: document.uri.toString(), version: document.version }, ...(more && more(document)) } });
  };
  const change = about('textDocument/didChange', (document) => ({ contentChanges: [{ text: document.getText() }] }));
  const files = vscode.workspace.createFileSystemWatcher('**/{*.cl,cool.files}');
  const moved = () => send({ method: 'workspace/didChangeWatchedFiles', params: { changes: [] } });
  context.subscriptions.push(
    faults, log, files, files.onDidChange(moved), files.onDidCreate(moved), files.onDidDelete(moved), ...readers(), ...writers(),
    vscode.debug.registerDebugAdapterDescriptorFactory('cool', adapter), vscode.debug.registerDebugConfigurationProvider('cool', launches),
    vscode.tasks.registerTaskProvider('cool', tasks), vscode.commands.registerCommand('cool.run', begin('run')),
    vscode.commands.registerCommand('cool.check', begin('check')), vscode.commands.registerCommand('cool.first', first),
    vscode.workspace.onDidOpenTextDocument(opened),
    vscode.workspace.onDidChangeTextDocument((event) => change(event.document)),
    vscode.workspace.onDidCloseTextDocument(about('textDocument/didClose')));
  if (vscode.workspace.textDocuments.some((d) => d.languageId === 'cool')) start();
}

function deactivate() {
  send({ id: 'last', method: 'shutdown' });
  send({ method: 'exit' });
}

module.exports = { activate, deactivate };
