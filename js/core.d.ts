/** What a refusal's code means: docs/FORMAT.md, "Refusals". */
export interface Code {
  /** The constant of reactive.h without its prefix, as `CONTINUE_SCHEDULED`. */
  readonly constant: string;
  readonly counts: Unit | null;
  readonly sentence: string;
  /** What to do about it. */
  readonly advice: string;
}
/** What `at` counts, from 0. */
export type Unit = 'byte' | 'word' | 'block' | 'row';
/** Every code with its meaning. */
export const CODES: { readonly [code: number]: Code };

/** Why there is no answer: thrown. The message has the code, the place and the sentence. */
export class Refusal extends Error {
  constructor(code: number, at: number);
  readonly code: number;
  /** The place: a byte of the text, a word of the table, a block, or a row of the tree (`unit`); 0 where `unit` is null. */
  readonly at: number;
  readonly unit: Unit | null;
  readonly constant: string;
  readonly sentence: string;
  readonly advice: string;
}

/** Words of a table, of a tree, of an index, or answers. Any numbers from 0 to 4,294,967,295 may be passed, and any number of them. A
 * Uint32Array must not be detached or shared between threads. */
export type Words = Uint32Array | readonly number[];
/** A table's text (docs/FORMAT.md). A file may be passed as bytes, since it need not be UTF-8. */
export type Text = string | Uint8Array;

/** What a build needs. */
export interface Size {
  readonly rows: number;
  readonly visits: number;
  /** Labelled statements: lines of the index. */
  readonly lines: number;
}
export interface Built extends Size {
  /** Six words for each row. */
  readonly tree: Uint32Array;
  /** Three words for each line: label, first row, closing row. */
  readonly index: Uint32Array;
}
/** Rows of a statement. */
export interface Found {
  readonly first: number;
  readonly closing: number;
  /** A part of the tree's own array. */
  readonly rows: Uint32Array;
}
export interface Ran {
  /** The instruction rows that were performed, in order. */
  readonly performed: Uint32Array;
  readonly reason: 'return' | 'throw' | 'end' | 'no answer';
}
export interface Rearranged {
  readonly words: Uint32Array;
  /** The old number of each block. */
  readonly oldNumbers: Uint32Array;
}
/** Which run law covers a table: 'plain' in either entry, 'switches' in the language entry, 'loops' in the language entry and, without a
 * Switch, in both; 'values' in the language entry, the stores of values left aside. */
export type Law = 'none' | 'plain' | 'switches' | 'loops' | 'values';

export interface Checked { code: number; at: number }
export interface Placed extends Checked { length: number }
export interface Outcome extends Checked { rows: number; visits: number; lines: number }

/** The calls of reactive.h as they are: the caller lends buffers of any length, and a refusal is a code (0: none). After a refusal what
 * was lent holds zeros; after an answer, zeros follow it. What is lent must not overlap another array of the call. */
export interface Raw {
  build(words: Words, tree: Uint32Array, index: Uint32Array): Outcome;
  buildLanguage(words: Words, tree: Uint32Array, index: Uint32Array): Outcome;
  preview(words: Words): Outcome;
  previewLanguage(words: Words): Outcome;
  lookup(index: Words, lines: number, label: number, tree: Words): Checked & { begin: number; end: number };
  checkTree(tree: Words): Checked;
  runTree(tree: Words, answers: Words, performed: Uint32Array): Checked & { number: number; reason: number };
  draw(words: Words, text: Uint8Array): Placed;
  writeTable(words: Words, text: Uint8Array): Placed;
  readTable(file: Text, words: Uint32Array): Checked & { count: number };
  oldToNew(file: Text, text: Uint8Array): Placed;
  newToOld(file: Text, text: Uint8Array): Placed;
  rearrange(words: Words, newWords: Uint32Array, oldNumbers: Uint32Array): Checked;
  restore(words: Words, oldNumbers: Words, firstWords: Uint32Array): Checked;
  checkTable(words: Words): Checked;
  law(words: Words): Checked & { number: number };
}

/** The proved functions. Every call is synchronous and keeps nothing. Any content and length may be passed; what is no such array is a
 * TypeError, what does not fit into the module's memory a RangeError, and a refusal of the function a {@link Refusal}. */
export class Reactive {
  constructor(module: WebAssembly.Module | (() => WebAssembly.Module));
  readonly raw: Raw;
  /** The tree of a table, jumps resolved as the Rust resolves them, and the index of its labels. */
  build(words: Words): Built;
  /** The same by the language's rule: a `break` that is to leave a loop from within a switch has a label, as ECMA-262 needs it. What is
   * to be printed as JavaScript comes from here. */
  buildLanguage(words: Words): Built;
  /** What `build` will need. */
  preview(words: Words): Size;
  previewLanguage(words: Words): Size;
  /** The rows of the statement that has a label. */
  lookup(built: Pick<Built, 'tree' | 'index'>, label: number): Found;
  /** Throws unless the rows are those of one tree. */
  checkTree(tree: Words): void;
  /** Which instructions a tree performs. Each IF, WHILE, FOR and DOWHILE takes one answer (`false` or 0 is no), a SWITCH the place of
   * the case in source order, from 0. */
  runTree(tree: Words, answers: Iterable<number | boolean>): Ran;
  /** The blocks as a graph in DOT, the language of Graphviz. */
  draw(words: Words): string;
  writeTable(words: Words): string;
  /** The words of a text; `checkTable` or a build says whether they are a table. */
  readTable(text: Text): Uint32Array;
  /** A text of the old form, with one number for each span, in today's form; and back. */
  oldToNew(text: Text): string;
  newToOld(text: Text): string;
  /** The blocks renumbered in walking order: tables that differ only by block numbers become equal. */
  rearrange(words: Words): Rearranged;
  /** The table that was rearranged. */
  restore(rearranged: Rearranged): Uint32Array;
  /** Throws unless the words are a table. */
  checkTable(words: Words): void;
  law(words: Words): Law;
}

/** At once, of the module's bytes. A browser may refuse to compile a module of over 8 MB at once; this one has some 60 KB. */
export function instantiate(source: BufferSource | WebAssembly.Module): Reactive;

export const ROW_WORDS: 6;
export const LINE_WORDS: 3;
export const MOST_LINES: 1023;
/** A label, test, update or binding that is not there. */
export const NONE: 65535;
/** The most rows of a table: blocks, instructions, cases, places, identifiers. */
export const LIMITS: readonly [1024, 4096, 1024, 4096, 4096];
