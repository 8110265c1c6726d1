// node engine.mjs COUNT: random programs of JavaScript, each run by this very engine and, as the table that page/lower.js makes of it, by
// the tree of the language entry: for the same answers both must do the same things in the same order and stop for the same reason. So must
// the code that page/code.js prints of that tree. The first entry resolves breaks out of a switch as the Rust does, and must part from the
// engine there and nowhere else.
import { createRequire } from 'node:module';
import { code as printed } from '../../page/code.js';
import { lower } from '../../page/lower.js';
import { random, reactive, tree } from './package.mjs';

const { parse } = createRequire(import.meta.url)('/usr/share/nodejs/acorn');
const below = random(12345), of = list => list[below(list.length)], many = Number(process.argv[2] ?? 20000), RUNS = 6;
let number = 0, budget = 0;
const block = (depth, around) => Array.from({ length: 1 + below(3) }, () => statement(depth, around)).join(' ');

/** A statement: `f(n)` does something, `q(n)` asks yes or no, `s(n)` asks for a case. */
function statement(depth, around) {
  if (--budget < 0 || depth <= 0) return `f(${number++});`;
  const name = `L${number++}`, has = below(2), label = has ? `${name}: ` : '',
    inside = what => block(depth - 1, [...around, { label: has ? name : null, ...what }]);
  const labelled = around.filter(({ label }) => label), loops = around.filter(({ isLoop }) => isLoop),
    loop = { isLoop: true, isPlain: true };
  switch (below(13)) {
    case 0: return `if (q(${number++})) { ${block(depth - 1, around)} }`;
    case 1: return `if (q(${number++})) { ${block(depth - 1, around)} } else { ${block(depth - 1, around)} }`;
    case 2: return `${label}while (q(${number++})) { ${inside(loop)} }`;
    case 3: return `${label}do { ${inside(loop)} } while (q(${number++}))`;
    case 4: return `${label}for (f(${number++}); q(${number++}); f(${number++})) { ${inside(loop)} }`;
    case 5: {
      const first = inside({ isPlain: true }), second = inside({ isPlain: true }), end = below(2) ? 'break;' : '';
      const third = below(2) ? `default: ${inside({ isPlain: true })}` : '';
      return `${label}switch (s(${number++})) { case 1: ${first} break; case 2: ${second} ${end} ${third} }`;
    }
    case 6: return `${name}: { ${block(depth - 1, [...around, { label: name }])} }`;
    case 7: return below(2) && labelled.length ? `break ${of(labelled).label};` : around.some(({ isPlain }) => isPlain) ? 'break;'
      : `f(${number++});`;
    case 8: {
      const named = loops.filter(({ label }) => label);
      return below(2) && named.length ? `continue ${of(named).label};` : loops.length ? 'continue;' : `f(${number++});`;
    }
    case 9: return below(3) ? `f(${number++});` : 'return 0;';
    case 10: return below(3) ? `f(${number++});` : "throw 'thrown';";
    default: return `f(${number++});`;
  }
}

/** What the engine does: the calls in order, and why it stops. */
function run(code, answers) {
  const log = [], stop = {};
  let at = 0;
  const ask = () => { if (at >= answers.length) throw stop; return answers[at++]; };
  try {
    code(n => { log.push(`f(${n})`); }, n => { log.push(`q(${n})`); return ask() !== 0; }, n => { log.push(`s(${n})`);
      return [1, 2, 99][ask()]; });
    return { log, reason: 'return' };
  } catch (error) {
    if (error !== stop && error !== 'thrown') throw error;
    return { log, reason: error === stop ? 'no answer' : 'throw' };
  }
}

/** The code of a tree as the page shows it, compiled by the engine. */
function codeOf(words, rows, source) {
  const table = tree.Table.of(words), nodes = tree.readTree(rows, table), ranges = tree.rangesOf(nodes, table);
  const rangeOf = node => ranges[node.type === 'Instr' && node.value.type === 'Plain' ? node.value.row : node.row];
  const lines = printed(nodes, ({ row }) => ranges[row] && source.slice(...ranges[row]).replace(/;$/, ''), rangeOf);
  const text = lines.map(({ parts }) => parts.map(part => part.text ?? part).join('')).join('\n');
  return new Function('f', 'q', 's', `let ${table.places.map((_, place) => `i${place}, t${place}`).join()};\n${text}`);
}

const seen = { build: 0, buildLanguage: 0, code: 0 };
let runs = 0, calls = 0, withSwitch = 0, elsewhere = 0, shortest;
for (let left = many; left > 0; left--) {
  number = 0;
  budget = 25;
  const source = block(4, []), words = reactive.rearrange(lower(source, { parse })).words, code = new Function('f', 'q', 's', source);
  const spans = 6 + 11 * words[1] + 5, text = row => source.slice(words[spans + 7 * row], words[spans + 7 * row + 1]).replace(/;$/, '');
  const trees = { build: reactive.build(words).tree, buildLanguage: reactive.buildLanguage(words).tree };
  const again = codeOf(words, trees.buildLanguage, source);
  if (source.includes('switch')) withSwitch++;
  for (let round = 0; round < RUNS; round++) {
    const answers = Array.from({ length: below(20) }, () => below(3)), engine = run(code, answers);
    runs++;
    calls += engine.log.length;
    const read = run(again, answers);
    if (read.log.join() !== engine.log.join() || read.reason !== engine.reason) seen.code++;
    for (const rule in trees) {
      const ran = reactive.runTree(trees[rule], answers), log = [...ran.performed].map(text).filter(part => /^[fqs]\(/.test(part));
      if (log.join() === engine.log.join() && ran.reason === engine.reason) continue;
      seen[rule]++;
      if (rule === 'build' && !source.includes('switch')) elsewhere++;
      if (rule === 'buildLanguage' && (!shortest || source.length < shortest.length)) shortest = source;
    }
  }
}
console.log(`engine: ${many} programs, ${withSwitch} with a switch, ${runs} runs, ${calls} calls`);
console.log(`engine: the code printed of the language entry's trees differs in ${seen.code} runs`);
console.log(`engine: the trees differ from node in ${seen.buildLanguage} runs by the language entry, in ${seen.build} by the first`);
if (seen.buildLanguage || seen.code || elsewhere || !seen.build || calls < 3 * runs) {
  console.log(`engine: FAILED${shortest ? `: ${shortest}` : ''}`);
  process.exitCode = 1;
}
