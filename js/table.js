// Tables of blocks as values with names: the columns of docs/FORMAT.md, "Input". Not proved; it copies and renames, and the proved check
// looks at the words.
import { BLOCK_WORDS, CASE_WORDS, HEAD_WORDS, INSTRUCTION_WORDS, NONE } from './core.js';
import { Refusal } from './refusal.js';

export const VARIANTS = Object.freeze(['Break', 'Continue', 'Try']), OPERATORS = Object.freeze(['||', '&&', '??']);

/** What a block ends in, by code: a name, then its columns. A column with `>` names a block, one with `?` may be none, and `=` says
 * which names its numbers have. */
export const ENDINGS = Object.freeze([
  'Missing', 'Unreachable', 'Throw value', 'Return value', 'Goto >block variant=', 'If test >consequent >alternate >fallthrough',
  'Branch test >consequent >alternate', 'Switch test firstCase caseCount >fallthrough', 'DoWhile >loop >test >fallthrough',
  'While >test >loop >fallthrough', 'For >init >test ?>update >loop >fallthrough', 'ForOf >init >test >loop >fallthrough',
  'ForIn >init >loop >fallthrough', 'Logical operator= >test >fallthrough', 'Ternary >test >fallthrough',
    'Optional optional= >test >fallthrough',
  'Label >block >fallthrough', 'Sequence >block >fallthrough', 'MaybeThrow >continuation', 'Try >block >handler >fallthrough ?binding',
  'Scope >block >fallthrough scope', 'PrunedScope >block >fallthrough scope',
].map((line, code) => {
  const [type, ...columns] = line.split(' ');
  return Object.freeze({ type, code,
    columns: Object.freeze(columns.map(column => Object.freeze({ name: column.replace(/[>?=]/g, ''), isBlock: column.includes('>'),
      mayBeNone: column.includes('?') }))) });
}));
const NAMES = { variant: VARIANTS, operator: OPERATORS, optional: Object.freeze([false, true]) };
const INSTRUCTIONS = Object.freeze([['Other'], ['LoadLocal', 'place'], ['StoreLocal', 'place', 'value']]);

function word(value, what) {
  if (typeof value !== 'number' || !Number.isInteger(value) || value < 0 || value > 4294967295)
    throw new TypeError(`${what} is an integer from 0 to 4,294,967,295, not ${String(value)}`);
  return value;
}
const wordOrNone = (value, what) => value === null || value === undefined ? NONE : word(value, what);
function span(range, what) {
  if (range === null || range === undefined) return [0, 0];
  if (!Array.isArray(range) || range.length !== 2) throw new TypeError(`${what} is a pair of numbers or null`);
  return range.map((end, k) => word(end, `${what}[${k}]`));
}
export const rangeOf = (from, to) => from || to ? [from, to] : null;

function blockRow(block, what) {
  const ending = ENDINGS.find(({ type }) => type === block?.type);
  if (!ending) throw new TypeError(`${what}: type is one of ${ENDINGS.map(({ type }) => type).join(', ')}, not ${String(block?.type)}`);
  const columns = ending.columns.map(({ name, mayBeNone }) => {
    const value = block[name], where = `${what}, ${ending.type}: ${name}`;
    if (!(name in NAMES)) return mayBeNone ? wordOrNone(value, where) : word(value, where);
    const names = NAMES[name], number = names.indexOf(value);
    if (number < 0) throw new TypeError(`${where} is one of ${names.join(', ')}, not ${String(value)}`);
    return number;
  });
  const [first, count, id] = [word(block.first, `${what}: first`), word(block.count, `${what}: count`), word(block.id ?? 0, `${what}: id`)];
  return [first, count, ending.code, ...columns, ...Array(5 - columns.length).fill(0), id, ...span(block.range, `${what}: range`)];
}

function instructionRow(instruction, what) {
  const code = INSTRUCTIONS.findIndex(([type]) => type === (instruction?.type ?? 'Other'));
  if (code < 0) throw new TypeError(`${what}: type is Other, LoadLocal or StoreLocal, not ${String(instruction?.type)}`);
  const columns = INSTRUCTIONS[code].slice(1).map(name => word(instruction[name], `${what}: ${name}`));
  return [word(instruction.id ?? 0, `${what}: id`), word(instruction.lvalue, `${what}: lvalue`), code, ...columns,
    ...Array(2 - columns.length).fill(0), ...span(instruction.range, `${what}: range`)];
}

export class Table {
  entry = 0;
  blocks = [];
  instructions = [];
  cases = [];
  places = [];
  identifiers = [];

  identifier(named = true) { return this.identifiers.push(named) - 1; }

  place(identifier = this.identifier()) { return this.places.push(identifier) - 1; }

  block({ cases, ...block }, instructions = []) {
    if (cases !== undefined) {
      Object.assign(block, { firstCase: this.cases.length, caseCount: cases.length });
      this.cases.push(...cases);
    }
    this.blocks.push({ ...block, first: block.type === 'Missing' ? 0 : this.instructions.length, count: instructions.length });
    this.instructions.push(...instructions);
    return this.blocks.length - 1;
  }

  words() {
    const rows = [
      ...this.blocks.map((block, row) => blockRow(block, `block ${row}`)),
      ...this.instructions.map((instruction, row) => instructionRow(instruction, `instruction ${row}`)),
      ...this.cases.map(({ test, block }, row) => [wordOrNone(test, `case ${row}: test`), word(block, `case ${row}: block`)]),
      this.places.map((identifier, row) => word(identifier, `place ${row}`)),
      this.identifiers.map(Number),
    ];
    const counts = [this.blocks, this.instructions, this.cases, this.places, this.identifiers].map(({ length }) => length);
    return Uint32Array.from([word(this.entry, 'entry'), ...counts, ...rows.flat()]);
  }

  static of(words) {
    const table = new Table(), [entry, ...counts] = Array.from({ length: Math.min(words.length, HEAD_WORDS) }, (_, k) => words[k]);
    const widths = [BLOCK_WORDS, INSTRUCTION_WORDS, CASE_WORDS, 1, 1];
    if (counts.length < 5 || words.length !== counts.reduce((sum, count, k) => sum + widths[k] * count, HEAD_WORDS))
      throw new Refusal(1, 0);
    let at = HEAD_WORDS;
    const rows = (sort, of) => Array.from({ length: counts[sort] }, () => {
      const row = Array.from({ length: widths[sort] }, (_, k) => words[at + k]);
      at += widths[sort];
      return of(row, at - widths[sort]);
    });
    table.entry = entry;
    table.blocks = rows(0, ([first, count, code, ...rest], at) => {
      const ending = ENDINGS[code], columns = rest.slice(0, 5), [id, from, to] = rest.slice(5);
      if (!ending) throw new Refusal(4, at + 2);
      const block = { type: ending.type };
      columns.forEach((value, k) => {
        const column = ending.columns[k], names = column && NAMES[column.name];
        if (column ? names && value >= names.length : value !== 0) throw new Refusal(4, at + 3 + k);
        if (column) block[column.name] = names ? names[value] : column.mayBeNone && value === NONE ? null : value;
      });
      return { ...block, first, count, id, range: rangeOf(from, to) };
    });
    table.instructions = rows(1, ([id, lvalue, code, p, q, from, to], at) => {
      const columns = INSTRUCTIONS[code];
      if (!columns) throw new Refusal(4, at + 2);
      [p, q].forEach((value, k) => { if (!columns[k + 1] && value !== 0) throw new Refusal(4, at + 3 + k); });
      return { type: columns[0], ...(columns[1] && { place: p }), ...(columns[2] && { value: q }), id, lvalue, range: rangeOf(from, to) };
    });
    table.cases = rows(2, ([test, block]) => ({ test: test === NONE ? null : test, block }));
    table.places = rows(3, ([identifier]) => identifier);
    table.identifiers = rows(4, ([named], at) => {
      if (named > 1) throw new Refusal(4, at);
      return named === 1;
    });
    return table;
  }

  targets(block) {
    const row = this.blocks[block], list = [];
    if (row.type === 'Switch') for (const { test, block } of this.cases.slice(row.firstCase, row.firstCase + row.caseCount)) list.push({
      role: test === null ? 'default' : 'case', test, block });
    for (const { name, isBlock } of ENDINGS.find(({ type }) => type === row.type)?.columns ?? []) if (isBlock
      && row[name] !== null) list.push({ role: name, block: row[name] });
    return list;
  }
}
