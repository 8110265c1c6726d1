// The package as `./run wasm` made it, and the tables that the tests use.
import { readFileSync, readdirSync } from 'node:fs';
import { fileURLToPath } from 'node:url';

export const top = fileURLToPath(new URL('../..', import.meta.url));
const folder = new URL('../../target/js/package/', import.meta.url);
export const { default: reactive } = await import(new URL('inline.js', folder));
export const core = await import(new URL('node.js', folder));
export const tree = await import(new URL('tree.js', folder));
export const module = () => readFileSync(new URL('reactive.wasm', folder));

/** Numbers that look random, the same at each run. */
export function random(seed) {
  let state = seed;
  return below => { state ^= state << 13; state ^= state >>> 17; state ^= state << 5; return (state >>> 0) % below; };
}

/** The stored vectors, which have the Rust's answers: words, number of words lent, answer, rows. */
export function vectors() {
  const bytes = readFileSync(`${top}crates/vectors/data/vectors.bin`), list = [];
  let at = 0;
  const number = () => { for (let value = 0, shift = 1; ; shift *= 128) { const byte = bytes[at++]; value += (byte & 127) * shift;
    if (byte < 128) return value; } };
  const many = count => Array.from({ length: count }, number);
  for (let left = number(); left > 0; left--) {
    const words = many(number()), lent = number(), [code, place, rows, visits] = many(4);
    list.push({ words, lent, code, at: place, rows, visits, tree: code === 0 ? many(6 * rows) : [] });
  }
  if (at !== bytes.length) throw new Error(`vectors.bin: ${bytes.length - at} bytes are left`);
  return list;
}

export const examples = () => readdirSync(`${top}examples`).filter(name => name.endsWith('.txt')).map(name =>
  ({ name, text: readFileSync(`${top}examples/${name}`, 'utf8') }));
