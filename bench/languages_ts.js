// Prints the tokens of TypeScript files by its compiler, as bench/languages wants them: see languages.js. The variable TYPESCRIPT names the folder of
// the module typescript, as /usr/share/nodejs/typescript of Debian's node-typescript.
const ts = require(process.env.TYPESCRIPT || 'typescript');
const fs = require('fs');

// ECMA-262 12.7.2
const RESERVED = new Set(('await break case catch class const continue debugger default delete do else enum export extends false finally for function ' +
  'if import in instanceof new null return super switch this throw true try typeof var void while with yield').split(' '));
const LITERALS = new Set([ts.SyntaxKind.NumericLiteral, ts.SyntaxKind.BigIntLiteral, ts.SyntaxKind.StringLiteral, ts.SyntaxKind.RegularExpressionLiteral,
  ts.SyntaxKind.NoSubstitutionTemplateLiteral, ts.SyntaxKind.TemplateHead, ts.SyntaxKind.TemplateMiddle, ts.SyntaxKind.TemplateTail]);

function classOf(kind, spelling, before) {
  if (LITERALS.has(kind)) return 'literal';
  if (kind === ts.SyntaxKind.PrivateIdentifier) return 'name';
  if (kind !== ts.SyntaxKind.Identifier && (kind < ts.SyntaxKind.FirstKeyword || kind > ts.SyntaxKind.LastKeyword)) return 'punct';
  return RESERVED.has(spelling) && !['.', '?.'].includes(before) ? 'word' : 'name';
}

function* leaves(node, source) {
  if (node.kind >= ts.SyntaxKind.FirstJSDocNode && node.kind <= ts.SyntaxKind.LastJSDocNode) return;
  const children = node.getChildren(source);
  if (children.length) for (const child of children) yield* leaves(child, source);
  else if (node.kind !== ts.SyntaxKind.EndOfFileToken && node.end > node.getStart(source)) yield node;
}

// a shift to the right is two or three greater-than signs
function* tokensOf(source, text) {
  let before = '';
  for (const node of leaves(source, source)) {
    const start = node.getStart(source);
    const spelling = text.slice(start, node.end);
    if (/^>>>?$/.test(spelling)) for (let at = start; at < node.end; at++) yield ['punct', at, at + 1];
    else yield [classOf(node.kind, spelling, before), start, node.end];
    before = spelling;
  }
}

for (const file of process.argv.slice(2)) {
  const text = fs.readFileSync(file, 'utf8');
  const source = ts.createSourceFile('a.ts', text, ts.ScriptTarget.Latest, false, ts.ScriptKind.TS);
  const isRefused = source.parseDiagnostics.length > 0;
  const lines = [isRefused ? 'refused' : 'text'];
  let at = 0, byte = 0, line = 1;
  const moved = (to) => {
    const part = text.slice(at, to);
    byte += Buffer.byteLength(part);
    line += part.split('\n').length - 1;
    at = to;
  };
  for (const [kind, start, end] of isRefused ? [] : tokensOf(source, text)) {
    moved(start);
    const [first, from] = [byte, line];
    moved(end);
    lines.push(`${kind} ${first} ${byte - first} ${from} ${line}`);
  }
  process.stdout.write(lines.join('\n') + '\n');
}
