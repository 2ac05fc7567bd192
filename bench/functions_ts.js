// Prints the functions of TypeScript files by its compiler, as bench/functions.py wants them: see functions.js. The variable TYPESCRIPT names the folder
// of the module typescript, as /usr/share/nodejs/typescript of Debian's node-typescript.
const ts = require(process.env.TYPESCRIPT || 'typescript');
const fs = require('fs');

const RESERVED = new Set(('await break case catch class const continue debugger default delete do else enum export extends false finally for function ' +
  'if import in instanceof new null return super switch this throw true try typeof var void while with yield').split(' '));
const { SyntaxKind } = ts;

// the node that names a function which is a value, if there is one
function nameOf(node) {
  const { parent } = node;
  const isGiven = [SyntaxKind.VariableDeclaration, SyntaxKind.PropertyAssignment, SyntaxKind.PropertyDeclaration, SyntaxKind.Parameter, SyntaxKind.BindingElement];
  if (isGiven.includes(parent.kind) && parent.initializer === node) return parent.name;
  if (!ts.isBinaryExpression(parent) || parent.operatorToken.kind !== SyntaxKind.EqualsToken || parent.right !== node) return undefined;
  return ts.isPropertyAccessExpression(parent.left) ? parent.left.name : parent.left;
}

function kindOf(node, name, spelling, source) {
  const isArrow = ts.isArrowFunction(node);
  if (isArrow && !ts.isBlock(node.body)) return 'arrow function without braces';
  const kind = isArrow ? 'arrow function' : ts.isFunctionDeclaration(node) || node.name ? 'function' : 'function as a value';
  if (!spelling) return `${kind} without a name`;
  if (RESERVED.has(spelling) && source.text[name.getStart(source) - 1] !== '.') return `${kind} named by a reserved word`;
  if (isArrow && !node.getChildren(source).some((child) => child.kind === SyntaxKind.OpenParenToken)) return `${kind} without parentheses`;
  if ((node.typeParameters || []).some((one) => /[<({;]/.test(one.getText(source)))) return `${kind} with brackets in its type parameters`;
  return node.type && /[(){};]/.test(node.type.getText(source)) ? `${kind} with brackets in the type of its result` : kind;
}

function* functionsOf(node, source) {
  const line = (place) => source.getLineAndCharacterOfPosition(place).line + 1;
  if (ts.isConstructorDeclaration(node) && node.body) {
    const word = node.getChildren(source).find((child) => child.kind === SyntaxKind.ConstructorKeyword);
    yield ['constructor', 'constructor', line(word.getStart(source)), line(node.body.end - 1)];
  } else if (ts.isFunctionLike(node) && node.body) {
    const name = node.name || nameOf(node);
    const spelling = name && (ts.isIdentifier(name) || ts.isPrivateIdentifier(name)) ? name.getText(source) : '';
    yield [kindOf(node, name, spelling, source), spelling, line((spelling ? name : node).getStart(source)), line(node.body.end - 1)];
  }
  const children = [];
  ts.forEachChild(node, (child) => { children.push(child); });
  for (const child of children) yield* functionsOf(child, source);
}

for (const path of fs.readFileSync(0, 'utf8').split('\n').filter(Boolean)) {
  const text = fs.readFileSync(path, 'utf8');
  const source = ts.createSourceFile('a.ts', text, ts.ScriptTarget.Latest, true, ts.ScriptKind.TS);
  const rows = source.parseDiagnostics.length ? [['fault']] : [...functionsOf(source, source)];
  process.stdout.write(rows.map((row) => `${[path, ...row].join('\t')}\n`).join('') || `${path}\tnone\n`);
}
