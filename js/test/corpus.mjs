// node corpus.mjs COUNT >FILE: tables for compare.mjs and native.c: the words of the stored vectors, the examples, then changed copies of
// both and random words, COUNT in all. The form: a number of tables; of each its number of words and its words; all 32 bits, little-endian.
import { writeSync } from 'node:fs';
import { examples, random, reactive, vectors } from './package.mjs';

const wanted = Number(process.argv[2]), tables = [], seen = new Set(), below = random(2463534242);
const add = words => { const key = words.join(); if (!seen.has(key)) { seen.add(key); tables.push(words); } };
for (const { words } of vectors()) add(words);
const stored = tables.length;
for (const { text } of examples()) add([...reactive.readTable(text)]);
const pool = tables.slice();
while (tables.length < wanted) {
  const words = pool[below(pool.length)].slice(), kind = below(10), blocks = words[1];
  if (kind === 0) words.splice(0, words.length, ...Array.from({ length: below(60) }, () => below(8) ? below(12) : below(70000)));
  else for (let times = 1 + below(3); times > 0; times--) {
    if (kind < 7 && blocks > 0 && 6 + 11 * blocks <= words.length) words[6 + 11 * below(blocks) + below(11)] = below(4)
      ? below(Math.min(blocks + 2, 1100)) : below(22);
    else if (words.length) words[below(words.length)] = below(3) ? below(30) : below(70000);
  }
  if (kind === 9) words.length = Math.max(0, words.length - below(3));
  add(words);
}
const bytes = Buffer.from(Uint32Array.from([tables.length, ...tables.flatMap(words => [words.length, ...words])]).buffer);
for (let done = 0; done < bytes.length;) done += writeSync(1, bytes, done, Math.min(65536, bytes.length - done));
const others = [pool.length - stored, tables.length - pool.length];
console.error(`${tables.length} tables: ${stored} of the vectors, ${others[0]} examples, ${others[1]} changed or random`);
