// Lays texts out for the tests: for each line `laid BASE64` of standard input it writes a line with the text laid out, and for `tokens BASE64` one with its
// tokens, each in base 64. The programs are $COOL and $COOL_EDITOR.
const { createInterface } = require('readline');
const { laidOut } = require('../cool_lsp/format.js');
const { Texts } = require('../cool_lsp/layout.js');

const base64 = (bytes) => Buffer.from(bytes, 'latin1').toString('base64');

(async () => {
  for await (const line of createInterface({ input: process.stdin })) {
    const [what, text] = line.split(' '), data = Buffer.from(text, 'base64').toString('latin1');
    console.log(what === 'laid' ? base64(await laidOut('p', data)) : new Texts(data).tokens.map(base64).join(' '));
  }
  process.exit(0);
})();
