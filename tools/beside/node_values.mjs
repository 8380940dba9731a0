// Holds a file of answered cases (the format is in src/lines.rs) against a JavaScript engine, in sloppy mode:
//
//     node tools/beside/node_values.mjs FILE
//
// A terminated literal without fault must be accepted with the same units, or with none cooked; any other text refused.
import { readFileSync } from 'node:fs';
import { units, value } from '../node_engine.mjs';

// what makes a whole expression of a literal's source, how many parts a template then has, and which is asked for
const wholes = {
  Str: (source) => [source],
  NoSubstitutionTemplate: (source) => ['tag' + source, 1, 0],
  TemplateHead: (source) => ['tag' + source + '0}`', 2, 0],
  TemplateMiddle: (source) => ['tag`${0' + source + '0}`', 3, 1],
  TemplateTail: (source) => ['tag`${0' + source, 2, 1],
};
const unterminated = { string: 'Str', template: 'NoSubstitutionTemplate', resume: 'TemplateTail' };

// what the engine says of a source as a literal of a kind: units as the cases write them, `none`, or `refused`
function said(kind, source) {
  const [whole, count, index] = wholes[kind](source);
  const v = value(whole);
  if (!v || (count && v.is.length !== count)) return 'refused';
  const is = count ? v.is[index] : v.is;
  return is === undefined ? 'none' : units(is).join(',') || '-';
}

const counts = {};
let differ = 0;
for (const line of readFileSync(process.argv[2], 'ascii').trim().split('\n')) {
  const [scan, start, hex, kind, end, , told, faults] = line.split(' ');
  if (kind === 'refused') continue;
  const bytes = Buffer.from(hex, 'hex');
  const open = kind === 'Undetermined';
  const source = bytes.subarray(start, open ? bytes.length : end).toString('utf8');
  const answer = said(open ? unterminated[scan] : kind, source);
  const expected = faults === '-' ? told : 'refused';
  const sort = `${kind} ${answer === 'refused' ? 'refused' : answer === 'none' ? 'not cooked' : 'accepted'}`;
  counts[sort] = (counts[sort] ?? 0) + 1;
  if (answer !== expected) {
    differ += 1;
    console.log(`${line}\n    the engine: ${answer}`);
  }
}
for (const sort of Object.keys(counts).sort()) console.log(`${sort}: ${counts[sort]}`);
console.log(`${Object.values(counts).reduce((a, b) => a + b, 0)} asked, ${differ} differ`);
process.exit(differ ? 1 : 0);
