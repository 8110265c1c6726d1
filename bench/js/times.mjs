// node bench/js/times.mjs CORPUS NATIVE: least microseconds of calls of the module, beside those of the native library (`native N <CORPUS`,
// of js/test/native.c). Prints a table of medians for docs/PERFORMANCE.md.
import { readFileSync } from 'node:fs';
import { reactive } from '../../js/test/package.mjs';

const [corpus, native] = process.argv.slice(2), ROUNDS = 20, { raw } = reactive, bytes = readFileSync(corpus);
const input = new Uint32Array(bytes.buffer.slice(bytes.byteOffset, bytes.byteOffset + bytes.length));
const expected = readFileSync(native, 'utf8').trim().split('\n').map(line => line.split(' ').map(Number));
const SIZES = [[10, 'under 10'], [50, '10 to 49'], [300, '50 to 299'], [1025, '300 to 1,024']];
const least = call => {
  let best = Infinity;
  for (let k = 0; k < ROUNDS; k++) {
    const begun = performance.now();
    call();
    best = Math.min(best, performance.now() - begun);
  }
  return 1000 * best;
};
const groups = new Map(SIZES.map(([, name]) => [name, []]));
for (let turn = 0, at = 1; turn < input[0]; turn++) {
  const count = input[at++], words = input.slice(at, at + count), [code, blocks, build, preview, law] = expected[turn];
  at += count;
  if (code) continue;
  const { rows, lines } = raw.preview(words), tree = new Uint32Array(6 * rows), index = new Uint32Array(3 * lines);
  const times = [build, least(() => raw.build(words, tree, index)), least(() => reactive.build(words)), preview,
    least(() => raw.preview(words)), law, least(() => raw.law(words))];
  groups.get(SIZES.find(([limit]) => blocks < limit)[1]).push(times);
}
const median = list => list.sort((a, b) => a - b)[list.length >> 1]?.toFixed(1) ?? '';
const names = ['Blocks', 'tables', 'build: native', 'raw call', 'friendly call', 'preview: native', 'raw call', 'law: native', 'raw call'];
const line = cells => console.log(`| ${cells.join(' | ')} |`);
line(names);
console.log(`|${'---|'.repeat(names.length)}`);
for (const [name, list] of groups) line([name, list.length, ...Array.from({ length: 7 }, (_, k) => median(list.map(times => times[k])))]);
