// The proved functions from JavaScript. They are those of ffi/reactive.h, compiled for WebAssembly. This file is not proved: it copies what
// a call is handed into the module's memory, and what it answers back.
import { Refusal } from './refusal.js';
export { CODES, Refusal } from './refusal.js';

/** The functions of the module: the one place that has their names there. */
export const EXPORTS = Object.freeze({
  build: 'reactive_build', buildLanguage: 'reactive_build_language',
  preview: 'reactive_preview', previewLanguage: 'reactive_preview_language',
  lookup: 'reactive_tree_lookup', checkTree: 'reactive_tree_check', runTree: 'reactive_tree_run',
  draw: 'reactive_blocks_to_dot', writeTable: 'reactive_table_write', readTable: 'reactive_table_read',
  oldToNew: 'reactive_table_old_to_new', newToOld: 'reactive_table_new_to_old',
  rearrange: 'reactive_blocks_rearrange', restore: 'reactive_blocks_restore',
  checkTable: 'reactive_table_check', law: 'reactive_table_plain',
});

export const ROW_WORDS = 6, LINE_WORDS = 3, BLOCK_WORDS = 11, INSTRUCTION_WORDS = 7, CASE_WORDS = 2, HEAD_WORDS = 6, MOST_LINES = 1023,
  NONE = 65535;
/** The most rows of a table: blocks, instructions, cases, places, identifiers. */
export const LIMITS = Object.freeze([1024, 4096, 1024, 4096, 4096]);
/** Bytes that hold the new text of any file of the old form, and the old text of any file. */
const NEW_TEXT_BYTES = 65542, OLD_TEXT_BYTES = 32768;
/** Words that hold those of any file. */
const FILE_WORDS = 16384;
const REASONS = Object.freeze(['', 'return', 'throw', 'end', 'no answer']);
const LAWS = Object.freeze(['none', 'plain', 'switches', 'loops', 'values']);
/** A page of the memory, and how much memory an instance keeps after a call, in bytes. */
const PAGE = 65536, KEPT = 16 * 1024 * 1024;

// ---- What a call is handed. The getters of the prototype see through subclasses and arrays of other windows.

const typedArrays = Object.getPrototypeOf(Uint8Array.prototype);
const getter = key => Object.getOwnPropertyDescriptor(typedArrays, key).get;
const sortOf = getter(Symbol.toStringTag), lengthOf = getter('length'), bufferOf = getter('buffer'), offsetOf = getter('byteOffset'),
  bytesOf = getter('byteLength');

function called(value) {
  if (value === null || value === undefined) return String(value);
  const sort = sortOf.call(value) ?? (typeof value === 'object' || typeof value === 'function'
    ? Object.prototype.toString.call(value).slice(8, -1) : typeof value);
  return `${/^[AEIOU](?!int)/i.test(sort) ? 'an' : 'a'} ${sort}`;
}

/** The array as it is, where it is a typed array of the sort, whole and of this thread alone. */
function typed(value, name, sort) {
  if (sortOf.call(value) !== sort) throw new TypeError(`${name} is a ${sort}, not ${called(value)}`);
  if (lengthOf.call(value) === 0) {
    try { typedArrays.keys.call(value); } catch { throw new TypeError(`${name} has lost its buffer: it was transferred or made smaller`); }
  }
  if (Object.prototype.toString.call(bufferOf.call(value)) === '[object SharedArrayBuffer]') {
    throw new TypeError(`${name} lies in memory that another thread may change during the call: hand over a copy, ${name}.slice()`);
  }
  return value;
}

function number32(value, name) {
  if (typeof value !== 'number' || !(value >= 0 && value <= 4294967295) || !Number.isInteger(value)) {
    throw new TypeError(`${name} is an integer from 0 to 4,294,967,295, not ${typeof value === 'number' ? value : called(value)}`);
  }
  return value;
}

/** Words: a Uint32Array as it is, an array of numbers as a new one. */
function words32(value, name) {
  if (!Array.isArray(value)) {
    if (sortOf.call(value) !== 'Uint32Array') throw new TypeError(`${name}: a Uint32Array or an array of numbers, not ${called(value)}`);
    return typed(value, name, 'Uint32Array');
  }
  const words = new Uint32Array(value.length);
  for (let place = 0; place < words.length; place++) words[place] = number32(value[place], `${name}[${place}]`);
  return words;
}

/** A text: a string as UTF-8, a Uint8Array as it is. */
function bytes8(value, name) {
  if (typeof value === 'string') return new TextEncoder().encode(value);
  if (sortOf.call(value) !== 'Uint8Array') throw new TypeError(`${name}: a string or a Uint8Array, not ${called(value)}`);
  return typed(value, name, 'Uint8Array');
}

/** Throws where an array that is written lies over another one. */
function apart(parts) {
  for (const part of parts) {
    if (!part.lend) continue;
    const buffer = bufferOf.call(part.lend), from = offsetOf.call(part.lend), to = from + bytesOf.call(part.lend);
    for (const other of parts) {
      const array = other.give ?? other.lend;
      if (!array || other === part || bufferOf.call(array) !== buffer) continue;
      const start = offsetOf.call(array), end = start + bytesOf.call(array);
      if (Math.max(from, start) < Math.min(to, end)) {
        throw new TypeError(`${part.name} and ${other.name} overlap: what is lent is no part of another array of the call`);
      }
    }
  }
}

/** The proved functions. Nothing is kept between calls; a call is synchronous. */
export class Reactive {
  #module;
  #instance = null;

  constructor(module) {
    this.#module = module;
  }

  #ready() {
    if (this.#instance) return this.#instance;
    if (typeof this.#module === 'function') this.#module = this.#module();
    const { exports } = new WebAssembly.Instance(this.#module);
    for (const name of ['memory', '__heap_base', ...Object.values(EXPORTS)]) {
      if (!(name in exports)) throw new TypeError(`this is not the module of this package: it does not export ${name}`);
    }
    return this.#instance = { exports, memory: exports.memory, base: Number(exports.__heap_base.value) + 15 & ~15 };
  }

  /** Calls a function of the module: its code, then the numbers of the cells. A part is an array that is read (`give`) or written
   * (`lend`), a number (`word`), or a place for one of so many bytes (`cell`). */
  #call(name, parts) {
    apart(parts);
    const { exports, memory, base } = this.#ready(), places = [], words = [];
    let end = base;
    for (const { give, lend, cell, word } of parts) {
      const array = give ?? lend;
      places.push(end);
      if (array || cell) words.push(BigInt(end));
      if (array) words.push(BigInt(lengthOf.call(array)));
      if (word !== undefined) words.push(word | 0);
      end += (array ? bytesOf.call(array) : cell ?? 0) + 7;
      end -= end % 8;
    }
    if (end > memory.buffer.byteLength) {
      try { memory.grow(Math.ceil((end - memory.buffer.byteLength) / PAGE)); } catch (cause) {
        const bytes = (end - base).toLocaleString('en');
        throw new RangeError(`${name}: a call with ${bytes} bytes of arrays does not fit into the module's memory`, { cause });
      }
    }
    const { buffer } = memory, copy = (array, place) => new (sortOf.call(array) === 'Uint32Array' ? Uint32Array : Uint8Array)(buffer,
      place, lengthOf.call(array));
    for (let k = 0; k < parts.length; k++) if (parts[k].give) copy(parts[k].give, places[k]).set(parts[k].give);
    try {
      const answer = [exports[EXPORTS[name]](...words) >>> 0], numbers = new DataView(buffer);
      for (let k = 0; k < parts.length; k++) {
        const { lend, cell } = parts[k];
        if (lend) typedArrays.set.call(lend, copy(lend, places[k]));
        else if (cell) answer.push(cell === 4 ? numbers.getUint32(places[k], true) : Number(numbers.getBigUint64(places[k], true)));
      }
      if (buffer.byteLength > KEPT) this.#instance = null;
      return answer;
    } catch (cause) {
      this.#instance = null; // a module that was stopped has lost its stack
      throw new Error(`${name}: the engine stopped the module`, { cause });
    }
  }

  /** The calls of reactive.h as they are: buffers are lent, the answer is numbers, and a refusal is a code. */
  raw = Object.freeze({
    build: (words, tree, index) => this.#build('build', words, tree, index),
    buildLanguage: (words, tree, index) => this.#build('buildLanguage', words, tree, index),
    preview: words => this.#preview('preview', words),
    previewLanguage: words => this.#preview('previewLanguage', words),
    lookup: (index, lines, label, tree) => {
      const parts = [{ give: words32(index, 'index') }, { word: number32(lines, 'lines') }, { word: number32(label, 'label') },
        { give: words32(tree, 'tree') }, { cell: 4 }, { cell: 8 }, { cell: 8 }];
      const [code, at, begin, end] = this.#call('lookup', parts);
      return { code, at, begin, end };
    },
    checkTree: tree => this.#checked('checkTree', words32(tree, 'tree')),
    runTree: (tree, answers, performed) => {
      const lent = { lend: typed(performed, 'performed', 'Uint32Array'), name: 'performed' };
      const parts = [{ give: words32(tree, 'tree'), name: 'tree' }, { give: words32(answers, 'answers'), name: 'answers' }, lent,
        { cell: 4 }, { cell: 8 }, { cell: 4 }];
      const [code, at, number, reason] = this.#call('runTree', parts);
      return { code, at, number, reason };
    },
    draw: (words, text) => this.#text('draw', words32(words, 'words'), 'words', text),
    writeTable: (words, text) => this.#text('writeTable', words32(words, 'words'), 'words', text),
    readTable: (file, words) => {
      const parts = [{ give: bytes8(file, 'file'), name: 'file' }, { lend: typed(words, 'words', 'Uint32Array'), name: 'words' },
        { cell: 4 }, { cell: 8 }];
      const [code, at, count] = this.#call('readTable', parts);
      return { code, at, count };
    },
    oldToNew: (file, text) => this.#text('oldToNew', bytes8(file, 'file'), 'file', text),
    newToOld: (file, text) => this.#text('newToOld', bytes8(file, 'file'), 'file', text),
    rearrange: (words, newWords, oldNumbers) => {
      const lent = [{ lend: typed(newWords, 'newWords', 'Uint32Array'), name: 'newWords' },
        { lend: typed(oldNumbers, 'oldNumbers', 'Uint32Array'), name: 'oldNumbers' }];
      const [code, at] = this.#call('rearrange', [{ give: words32(words, 'words'), name: 'words' }, ...lent, { cell: 4 }]);
      return { code, at };
    },
    restore: (words, oldNumbers, firstWords) => {
      const given = [{ give: words32(words, 'words'), name: 'words' }, { give: words32(oldNumbers, 'oldNumbers'), name: 'oldNumbers' }];
      const [code, at] = this.#call('restore', [...given, { lend: typed(firstWords, 'firstWords', 'Uint32Array'), name: 'firstWords' },
        { cell: 4 }]);
      return { code, at };
    },
    checkTable: words => this.#checked('checkTable', words32(words, 'words')),
    law: words => {
      const [code, at, number] = this.#call('law', [{ give: words32(words, 'words') }, { cell: 4 }, { cell: 4 }]);
      return { code, at, number };
    },
  });

  #build(name, words, tree, index) {
    const lent = [{ lend: typed(tree, 'tree', 'Uint32Array'), name: 'tree' },
      { lend: typed(index, 'index', 'Uint32Array'), name: 'index' }];
    const [code, at, rows, visits, lines] = this.#call(name, [{ give: words32(words, 'words'), name: 'words' }, ...lent, { cell: 4 },
      { cell: 4 }, { cell: 4 }, { cell: 4 }]);
    return { code, at, rows, visits, lines };
  }
  #preview(name, words) {
    const [code, at, rows, visits, lines] = this.#call(name, [{ give: words32(words, 'words') }, { cell: 4 }, { cell: 4 }, { cell: 4 },
      { cell: 4 }]);
    return { code, at, rows, visits, lines };
  }
  #checked(name, words) {
    const [code, at] = this.#call(name, [{ give: words }, { cell: 4 }]);
    return { code, at };
  }
  #text(name, items, what, text) {
    const [code, at, length] = this.#call(name, [{ give: items, name: what }, { lend: typed(text, 'text', 'Uint8Array'), name: 'text' },
      { cell: 4 }, { cell: 8 }]);
    return { code, at, length };
  }

  // ---- For people: arrays of their own come out, and a refusal is thrown.

  build(words) { return this.#built(this.raw.build, words); }
  buildLanguage(words) { return this.#built(this.raw.buildLanguage, words); }
  #built(build, given) {
    const words = words32(given, 'words'), blocks = Math.min(words[1] ?? 0, LIMITS[0]), instructions = Math.min(words[2] ?? 0, LIMITS[1]);
    // An instruction is mostly two rows, the end of a block no more than three; built once more where that was short.
    let tree = new Uint32Array(ROW_WORDS * (16 + 3 * blocks + 2 * instructions));
    const index = new Uint32Array(LINE_WORDS * Math.min(blocks, MOST_LINES));
    let built = build(words, tree, index);
    if (built.code === 40) built = build(words, tree = new Uint32Array(ROW_WORDS * built.rows), index);
    const { rows, visits, lines } = accepted(built);
    return { rows, visits, lines, tree: tree.slice(0, ROW_WORDS * rows), index: index.slice(0, LINE_WORDS * lines) };
  }

  preview(words) { return accepted(this.raw.preview(words)); }
  previewLanguage(words) { return accepted(this.raw.previewLanguage(words)); }

  lookup(built, label) {
    const tree = words32(built?.tree, 'tree'), index = words32(built?.index, 'index');
    const { begin, end } = accepted(this.raw.lookup(index, Math.floor(index.length / LINE_WORDS), label, tree));
    return { first: begin / ROW_WORDS, closing: end / ROW_WORDS - 1, rows: tree.subarray(begin, end) };
  }

  checkTree(tree) { accepted(this.raw.checkTree(tree)); }

  runTree(given, asked) {
    const tree = words32(given, 'tree');
    if (typeof asked?.[Symbol.iterator] !== 'function' || typeof asked === 'string')
      throw new TypeError(`answers: a list of numbers, true and false, not ${called(asked)}`);
    const answers = words32(Array.from(asked, answer => typeof answer === 'boolean' ? Number(answer) : answer), 'answers');
    let plains = 0;
    for (let word = 0; word < tree.length; word += ROW_WORDS) if (tree[word] === 1) plains++;
    const most = (answers.length + 1) * plains; // between two answers no row is performed twice
    for (let lent = Math.min(most, 1024); ; lent = Math.min(most, 8 * lent)) {
      const performed = new Uint32Array(lent), ran = this.raw.runTree(tree, answers, performed);
      if (ran.code === 65 && lent < most) continue;
      const { number, reason } = accepted(ran);
      return { performed: performed.slice(0, number), reason: REASONS[reason] };
    }
  }

  draw(given) {
    const words = words32(given, 'words');
    return this.#written(words, this.raw.draw, drawingBytes(words));
  }
  writeTable(given) {
    const words = words32(given, 'words');
    return this.#written(words, this.raw.writeTable, 256 + 11 * words.length); // of a word ten digits and a space; the names are 175 bytes
  }
  readTable(text) {
    const file = bytes8(text, 'text'), words = new Uint32Array(Math.min(file.length >> 1, FILE_WORDS));
    const { count } = accepted(this.raw.readTable(file, words));
    return words.slice(0, count);
  }
  oldToNew(text) { return this.#written(bytes8(text, 'text'), this.raw.oldToNew, NEW_TEXT_BYTES); }
  newToOld(text) { return this.#written(bytes8(text, 'text'), this.raw.newToOld, OLD_TEXT_BYTES); }
  #written(items, write, lent) {
    const text = new Uint8Array(lent), { length } = accepted(write(items, text));
    return new TextDecoder().decode(text.subarray(0, length));
  }

  rearrange(given) {
    const words = words32(given, 'words');
    const result = { words: new Uint32Array(words.length), oldNumbers: new Uint32Array(Math.min(words[1] ?? 0, LIMITS[0])) };
    accepted(this.raw.rearrange(words, result.words, result.oldNumbers));
    return result;
  }
  restore(rearranged) {
    const words = words32(rearranged?.words, 'words'), oldNumbers = words32(rearranged?.oldNumbers, 'oldNumbers'),
      first = new Uint32Array(words.length);
    accepted(this.raw.restore(words, oldNumbers, first));
    return first;
  }

  checkTable(words) { accepted(this.raw.checkTable(words)); }
  law(words) { return LAWS[accepted(this.raw.law(words)).number]; }
}

/** So many bytes hold the drawing of a table: a line of at most 16 bytes for each time that a row names a block. Five columns of a row can;
 * a Switch names its cases and its fallthrough. */
function drawingBytes(words) {
  let lines = 0;
  const blocks = Math.min(words[1] ?? 0, LIMITS[0]);
  for (let block = 0, row = HEAD_WORDS; block < blocks && row + BLOCK_WORDS <= words.length; block++, row += BLOCK_WORDS) {
    lines += words[row + 2] === 7 ? 1 + Math.min(words[row + 5], LIMITS[2]) : 5;
  }
  return 14 + 16 * lines;
}

function accepted(answer) {
  const { code, at, ...rest } = answer;
  if (code) throw new Refusal(code, at);
  return rest;
}

/** The module of these bytes, compiled at once. */
export function compile(source) {
  const { WebAssembly } = engine();
  try { return new WebAssembly.Module(source); } catch (cause) { throw notCompiled(cause); }
}

export function instantiate(source) {
  const { WebAssembly } = engine();
  return new Reactive(source instanceof WebAssembly.Module ? source : compile(source));
}

/** What the engine has. */
export function engine() {
  if (typeof WebAssembly !== 'object' || typeof BigInt !== 'function')
    throw new Error('reactive-build needs WebAssembly and BigInt, and this engine does not have them');
  return globalThis;
}

export function notCompiled(cause) {
  const why = cause?.message ?? String(cause);
  const hint = /unsafe-eval|Content.Security.Policy|disallowed by embedder/i.test(why)
    ? "; the page's Content-Security-Policy must have script-src 'wasm-unsafe-eval'" : '';
  return new Error(`the module is not compiled: ${why}${hint}`, { cause });
}
