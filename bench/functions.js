// Prints the functions of JavaScript files by acorn, as bench/functions.py wants them: for each a line with its file, its kind, its name, the line of
// that, and the last line of its body, separated by tabs; or its file and `fault` if acorn refuses it as a script and as a module. The files are the
// lines of standard input. The acorn is the one in node: node --expose-internals bench/functions.js.
const acorn = require('internal/deps/acorn/acorn/dist/acorn');
const fs = require('fs');

const RESERVED = new Set(('await break case catch class const continue debugger default delete do else enum export extends false finally for function ' +
  'if import in instanceof new null return super switch this throw true try typeof var void while with yield').split(' '));

function parsed(text) {
  for (const sourceType of ['module', 'script']) {
    try {
      return acorn.parse(text, { ecmaVersion: 'latest', sourceType, allowHashBang: true, allowReturnOutsideFunction: true, locations: true });
    } catch (error) {
      if (!(error instanceof SyntaxError)) throw error;
    }
  }
  return undefined;
}

// the node that names a function which is a value, if there is one
function nameOf(parent, node) {
  const { type } = parent;
  if (type === 'VariableDeclarator' && parent.init === node) return parent.id;
  if (type === 'AssignmentPattern' && parent.right === node) return parent.left;
  if (type === 'AssignmentExpression' && parent.right === node && parent.operator === '=') {
    return parent.left.type === 'MemberExpression' && !parent.left.computed ? parent.left.property : parent.left;
  }
  if (['Property', 'PropertyDefinition', 'MethodDefinition'].includes(type) && parent.value === node && !parent.computed) return parent.key;
  return undefined;
}

function* functionsOf(node, parent, text) {
  if (!node || typeof node.type !== 'string') return;
  if (/Function/.test(node.type)) {
    const isMethod = parent.type === 'MethodDefinition' || parent.method || ['get', 'set'].includes(parent.kind);
    const isArrow = node.type === 'ArrowFunctionExpression';
    const name = node.id || nameOf(parent, node);
    const isNamed = name && ['Identifier', 'PrivateIdentifier'].includes(name.type);
    const spelling = isNamed ? text.slice(name.start, name.end) : '';
    const [first, last] = [(isNamed ? name : node).loc.start.line, node.body.loc.end.line];
    let kind = node.id ? 'function' : isMethod ? 'method' : isArrow ? 'arrow function' : 'function as a value';
    if (isArrow && node.body.type !== 'BlockStatement') kind = 'arrow function without braces';
    else if (!isNamed) kind += ' without a name';
    else if (RESERVED.has(spelling) && text[name.start - 1] !== '.') kind += ' named by a reserved word';
    else if (isArrow && node.params.length === 1 && !text.slice(node.params[0].end, node.body.start).includes(')')) kind += ' without parentheses';
    yield [kind, spelling, first, last];
  }
  for (const key of Object.keys(node)) {
    const value = node[key];
    for (const child of Array.isArray(value) ? value : [value]) if (child && typeof child === 'object') yield* functionsOf(child, node, text);
  }
}

for (const path of fs.readFileSync(0, 'utf8').split('\n').filter(Boolean)) {
  const text = fs.readFileSync(path, 'utf8');
  const tree = parsed(text);
  const rows = tree ? [...functionsOf(tree, {}, text)] : [['fault']];
  process.stdout.write(rows.map((row) => `${[path, ...row].join('\t')}\n`).join('') || `${path}\tnone\n`);
}
