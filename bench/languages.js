// Prints the tokens of JavaScript files by acorn, as bench/languages wants them: for each file the line `text`, and for each token its class, its
// first byte, its length, and its first and last line; or the line `refused` if acorn refuses the file as a script and as a module. The acorn is
// the one in node: node --expose-internals bench/languages.js FILE.. The variable ACORN may name a folder with another one and with acorn-jsx, as
// /usr/share/nodejs of Debian's node-acorn; then elements of JSX are read, too.
const { ACORN } = process.env;
const acorn = require(ACORN ? `${ACORN}/acorn` : 'internal/deps/acorn/acorn/dist/acorn');
const Parser = ACORN ? acorn.Parser.extend(require(`${ACORN}/acorn-jsx`)()) : acorn.Parser;
const fs = require('fs');

// reserved words (ECMA-262 12.7.2) that acorn takes for names; after a point they are
const RESERVED = new Set(['await', 'enum', 'yield']);

function tokensOf(text) {
  for (const sourceType of ['module', 'script']) {
    const tokens = [];
    try {
      Parser.parse(text, { ecmaVersion: 'latest', sourceType, allowHashBang: true, allowReturnOutsideFunction: true, onToken: tokens });
      return tokens;
    } catch (error) {
      if (!(error instanceof SyntaxError)) throw error;
    }
  }
  return undefined;
}

function classOf(token, before) {
  const { keyword, label } = token.type;
  const reserved = label === 'name' && RESERVED.has(token.value) && token.end - token.start === token.value.length;
  if (keyword || (reserved && !(before && ['.', '?.'].includes(before.type.label)))) return 'word';
  if (['name', 'privateId', 'jsxName'].includes(label)) return 'name';
  return ['num', 'string', 'regexp'].includes(label) ? 'literal' : 'punct';
}

// acorn's tokens, with the parts of a template joined from quote to quote, or from brace to brace, and a closing tag from bracket to bracket; a
// text of JSX is without the blanks around it
function* joined(tokens, text) {
  const labelAt = (i) => (tokens[i] ? tokens[i].type.label : '');
  for (let i = 0; i < tokens.length; i++) {
    const first = tokens[i];
    if (labelAt(i) === 'eof') return;
    if (labelAt(i) === 'jsxText') {
      const [, before, , after] = text.slice(first.start, first.end).match(/^(\s*)([^]*?)(\s*)$/);
      if (first.start + before.length < first.end) yield ['literal', first.start + before.length, first.end - after.length];
    } else if (labelAt(i) === 'jsxTagStart' && labelAt(i + 1) === '/') {
      while (labelAt(i) !== 'jsxTagEnd') i++;
      yield ['punct', first.start, tokens[i].end];
    } else if (labelAt(i + 1).includes('template')) {
      yield ['literal', first.start, tokens[i + 2].end];
      i += 2;
    } else {
      yield [classOf(first, tokens[i - 1]), first.start, first.end];
    }
  }
}

for (const file of process.argv.slice(2)) {
  const text = fs.readFileSync(file, 'utf8');
  const tokens = tokensOf(text);
  const lines = [tokens ? 'text' : 'refused'];
  let at = 0, byte = 0, line = 1;
  const moved = (to) => {
    const part = text.slice(at, to);
    byte += Buffer.byteLength(part);
    line += part.split('\n').length - 1;
    at = to;
  };
  for (const [kind, start, end] of joined(tokens ?? [], text)) {
    moved(start);
    const [first, from] = [byte, line];
    moved(end);
    lines.push(`${kind} ${first} ${byte - first} ${from} ${line}`);
  }
  process.stdout.write(lines.join('\n') + '\n');
}
