// What a JavaScript engine says of string and template literals: outside material for the definition in crates/grammar and for the readers built on it.
//
//     node tools/node_literals.mjs > tools/node_literals.txt
//
// A line for each literal, in sloppy mode: the hex of its UTF-8 bytes, then one of
//     accepted UNITS..     the engine takes the whole as one literal of this value: 16-bit units of four hex digits each
//     none                 a template part that the engine takes and for which it cooks no value
//     refused              a syntax error
// Template parts that open or close at a substitution (`..${, }..${, }..`) are read off a tagged template of three parts, a line each.
import { units, value } from './node_engine.mjs';

const LS = '\u2028', PS = '\u2029', CR = '\r', LF = '\n';

const escapes = [
  '0', '00', '01', '08', '1', '3', '4', '7', '8', '9', '12', '18', '37', '38', '40', '47', '77', '123', '377', '378', '400', '477',
  'x', 'x4', 'x41', 'xfF', 'x4g', 'xg', 'u', 'u1', 'u12', 'u123', 'u1234', 'uD83D', 'uDE00', 'uD83D\\uDE00', 'uD83D\\u0041', 'ug', 'u{', 'u{}', 'u{0}', 'u{41', 'u{41}', 'u{D83D}', 'u{D83D}\\u{DE00}',
  'u{FFFF}', 'u{10000}', 'u{1F600}', 'u{10FFFF}', 'u{110000}', 'u{1100000}', 'u{110000', 'u{0000000041}', 'u{g}', 'u{4g}',
  'b', 'f', 'n', 'r', 't', 'v', "'", '"', '`', '\\', 'a', 'g', 'z', '$', '{', '}', 'é', '😀', LF, CR, CR + LF, LS, PS,
].map((e) => '\\' + e);
const raw = ['', 'a', 'é', '😀', '\u0000', '\u007f', '\u0800', '\uffff', '$', '$$', '{', '}', "'", '"', '`', LF, CR, CR + LF, CR + CR, LF + CR, LS, PS];
const behind = ['', '0', '8', 'F', '{', '}', LF];

const hex = (text) => Buffer.from(text, 'utf8').toString('hex');
const said = new Set();
function say(literal, ...words) {
  if (!said.has(literal)) console.log([hex(literal), ...words].join(' '));
  said.add(literal);
}

const cooked = (part) => (part === undefined ? ['none'] : ['accepted', ...units(part)]);

function string(quote, inside) {
  const literal = quote + inside + quote;
  // a quote inside would leave more than one literal, or a string that the engine reads on from
  if (inside.replace(/\\(\r\n|[^])/g, '').includes(quote)) return;
  const v = value(literal);
  say(literal, ...(v ? ['accepted', ...units(v.is)] : ['refused']));
}

function template(inside, parts) {
  if (inside.replace(/\\(\r\n|[^])/g, '').match(/`|\$\{/)) return;
  const v = value('tag`' + inside + '`');
  say('`' + inside + '`', ...(v ? cooked(v.is[0]) : ['refused']));
  if (!parts) return;
  const w = value('tag`' + inside + '${0}' + inside + '${0}' + inside + '`');
  if (!w) return;
  say('`' + inside + '${', ...cooked(w.is[0]));
  say('}' + inside + '${', ...cooked(w.is[1]));
  say('}' + inside + '`', ...cooked(w.is[2]));
}

for (const first of [...escapes, ...raw]) {
  string("'", first);
  for (const second of behind) {
    string('"', first + second);
    template(first + second, second === '');
  }
}
