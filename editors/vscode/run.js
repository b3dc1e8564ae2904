// Runs or checks files with the module of `cool`, if the program is not installed: run.js run|check FILES. The status is that of the module.
'use strict';
const path = require('path');
const fs = require('fs');

// The scripts are inside a package; in a repository or an installation they are beside this folder.
const EDITORS = [path.join(__dirname, 'editors'), path.join(__dirname, '..')].find((it) => fs.existsSync(path.join(it, 'cool-lsp')));
const { spawnModule } = require(path.join(EDITORS, 'node', 'module.js'));

const [what, ...files] = process.argv.slice(2);
const run = spawnModule([what, '--', ...files], { cwd: process.cwd() }, 'cool');
run.stdout.on('data', (bytes) => process.stdout.write(bytes));
run.stderr.on('data', (bytes) => process.stderr.write(bytes));
process.stdin.on('data', (bytes) => run.stdin.write(bytes)).on('end', () => run.stdin.end());
run.on('error', (error) => (console.error(`cool: ${error.message}`), process.exit(1)));
run.on('close', (status) => process.stdout.write('', () => process.exit(status ?? 1)));
