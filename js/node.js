// As index.js, for node: a file is read.
import { readFile } from 'node:fs/promises';
import { load as loadAny } from './index.js';
export { CODES, LIMITS, LINE_WORDS, MOST_LINES, NONE, ROW_WORDS, Reactive, Refusal, instantiate } from './core.js';

export async function load(source = new URL('./reactive.wasm', import.meta.url)) {
  source = await source;
  if (source instanceof URL && source.protocol === 'file:') {
    const file = source;
    source = await readFile(file).catch(cause => { throw new Error(`${file} cannot be loaded: ${cause.message}`, { cause }); });
  }
  return loadAny(source);
}
