// node js/make.mjs MODULE.wasm FOLDER: the package, from this folder, docs/FORMAT.md, ffi/reactive.h and the module. `./run wasm` calls it.
import { copyFileSync, mkdirSync, readFileSync, readdirSync, rmSync, writeFileSync } from 'node:fs';
import { join } from 'node:path';
import { fileURLToPath } from 'node:url';

const top = fileURLToPath(new URL('..', import.meta.url)), [module, folder] = process.argv.slice(2);
const read = name => readFileSync(join(top, name), 'utf8');

/** The refusals: docs/FORMAT.md has what `at` counts, the sentence and the advice, reactive.h the name. */
function codes() {
  const lines = read('docs/FORMAT.md').split('\n'), begin = lines.indexOf('| Code | At | Meaning | What to do |');
  if (begin < 0) throw new Error('docs/FORMAT.md has no table of refusals');
  const constants = new Map([...read('ffi/reactive.h').matchAll(/\bREACTIVE_REFUSAL_(\w+) = (\d+)/g)].map(([, name, code]) =>
    [code, name]));
  const codes = {};
  for (let line = begin + 2; lines[line].startsWith('|'); line++) {
    const [code, at, sentence, advice] = lines[line].slice(2, -2).split(' | ').map(cell => cell.replaceAll('`', ''));
    const [, before] = advice.match(/^As for (\d+)$/) ?? [];
    if (!constants.has(code)) throw new Error(`ffi/reactive.h has no name for ${code}`);
    codes[code] = { constant: constants.get(code), counts: at === '0' ? null : at.match(/^(byte|word|block|row)\b/)[0], sentence,
      advice: before ? codes[before].advice : advice };
  }
  if (Object.keys(codes).length !== constants.size) throw new Error('docs/FORMAT.md and ffi/reactive.h have other codes');
  return codes;
}

rmSync(folder, { recursive: true, force: true });
mkdirSync(folder, { recursive: true });
const names = [...JSON.parse(read('js/package.json')).files, 'package.json',
  'README.md'].map(name => new RegExp(`^${name.replace(/[.]/g, '\\.').replace('*', '.*')}$`));
for (const name of readdirSync(join(top, 'js'))) if (names.some(pattern => pattern.test(name))) copyFileSync(join(top, 'js', name),
  join(folder, name));
for (const name of ['LICENSE', 'NOTICE']) copyFileSync(join(top, name), join(folder, name));
copyFileSync(module, join(folder, 'reactive.wasm'));
writeFileSync(join(folder, 'codes.js'), `// Made from docs/FORMAT.md, "Refusals", by js/make.mjs.
export const CODES = Object.freeze({
${Object.entries(codes()).map(([code, meaning]) => `  ${code}: Object.freeze(${JSON.stringify(meaning)}),\n`).join('')}});
`);
writeFileSync(join(folder, 'inline.js'), `// Made by js/make.mjs: the module within. It is compiled at the first call.
import { Reactive, compile } from './core.js';
export { CODES, LIMITS, LINE_WORDS, MOST_LINES, NONE, ROW_WORDS, Reactive, Refusal, instantiate } from './core.js';
export default new Reactive(() => compile(Uint8Array.from(atob('${readFileSync(module).toString('base64')}'), c => c.charCodeAt(0))));
`);
