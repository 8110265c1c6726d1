// Trees as nodes with names: the rows of docs/FORMAT.md, "Output", in a form near to ESTree's. Not proved; it copies and renames.
import { LINE_WORDS, NONE, ROW_WORDS } from './core.js';
import { Refusal } from './refusal.js';
import { OPERATORS, rangeOf } from './table.js';
export { ENDINGS, OPERATORS, Table, VARIANTS } from './table.js';
export { Offsets } from './spans.js';

export const KINDS = Object.freeze(['Implicit', 'Labeled', 'Unlabeled']);

/** The rows by op: name; the sort of node that it is; columns; parts in the order of the rows, each with what it must be. A column with
 * `?` may be none; `*` before a part stands for as many as the column behind `*` says. */
const OPS = [
  'Plain value instruction', 'Load value place', 'Undef value from to', 'Instr instruction id lvalue from to | value:value',
    'Seq value instructions id | *instructions:instruction value:value',
  'Logical value operator | left:value right:value', 'Cond value | test:value consequent:value alternate:value',
    'Optional value optional | value:value',
  'Block block statements | *body:statement', 'If statement test hasAlternate id ?label | consequent:block alternate:block',
    'Case case ?test | body:block',
  'Switch statement test cases id ?label | *cases:case', 'DoWhile statement id ?label | body:block test:value',
    'While statement id ?label | test:value body:block',
  'For statement id ?label hasUpdate | init:value test:value update:value body:block',
    'ForOf statement id ?label from to | init:value test:value body:block',
  'ForIn statement id ?label from to | init:value body:block', 'Label statement id ?label | body:block',
    'Try statement id ?label ?binding | block:block handler:block',
  'Scope statement scope | body:block', 'Pruned statement scope | body:block', 'Return statement value id', 'Throw statement value id',
  'Break statement target id kind loopsLeft', 'Continue statement target id kind loopsLeft',
].map(line => {
  const [own, parts = ''] = line.split(' | '), [type, sort, ...columns] = own.split(' ');
  return {
    type, sort, columns: columns.map(name => ({ name: name.replace('?', ''), mayBeNone: name.startsWith('?') })),
    parts: parts.split(' ').filter(Boolean).map(part => {
      const [name, sort] = part.replace('*', '').split(':');
      return { name, sort, many: part.startsWith('*') };
    }),
  };
});
const SORTS = new Map(OPS.map(({ type, sort }) => [type, sort])), COUNTS = { Seq: 'instructions', Block: 'statements', Switch: 'cases' },
  FLAGS = new Set(['hasAlternate', 'hasUpdate', 'optional']);

/** The names of a node's parts, in the order in which a run comes to them. */
export const visitorKeys = Object.freeze(Object.fromEntries(OPS.map(({ type, parts }) =>
  [type, Object.freeze(parts.map(({ name }) => name))])));

function named(value, { name, mayBeNone }, row) {
  if (mayBeNone && value === NONE) return null;
  const names = name === 'kind' ? KINDS : name === 'operator' ? OPERATORS : FLAGS.has(name) ? [false, true] : null;
  if (names && value >= names.length) throw new Refusal(60, row);
  return names ? names[value] : value;
}

export function readTree(words, table) {
  if (words.length === 0 || words.length % ROW_WORDS) throw new Refusal(62, 0);
  const rows = [];
  const open = [];
  for (let row = 0; row < words.length / ROW_WORDS; row++) {
    const [op, ...values] = Array.from({ length: ROW_WORDS }, (_, k) => words[ROW_WORDS * row + k]), spec = OPS[op - 1];
    if (!spec || values.slice(spec.columns.length).some(value => value !== 0)) throw new Refusal(60, row);
    const columns = Object.fromEntries(spec.columns.map((column, k) => [column.name, named(values[k], column, row)])),
      { from, to, hasAlternate, hasUpdate, ...own } = columns;
    const instruction = spec.type === 'Plain' ? table?.instructions[own.instruction] : undefined;
    const node = { type: spec.type, row, first: row, range: from === undefined ? instruction?.range ?? null : rangeOf(from, to), ...own };
    const wanted = spec.parts.flatMap(({ name, sort, many }) => {
      if (many) return Array(own[COUNTS[spec.type]]).fill({ name, sort, many });
      return name === 'alternate' && hasAlternate === false || name === 'update' && hasUpdate === false ? [] : [{ name, sort, many }];
    });
    for (const { name, many } of spec.parts) node[name] = many ? [] : null;
    if (wanted.length > open.length) throw new Refusal(61, row);
    const parts = open.splice(open.length - wanted.length);
    parts.forEach((part, k) => {
      const { name, sort, many } = wanted[k], is = SORTS.get(part.type);
      if (is !== sort && !(sort === 'statement' && is === 'instruction')) throw new Refusal(61, row);
      if (many) node[name].push(part); else node[name] = part;
    });
    if (spec.type === 'Switch') node.cases.reverse(); // rows have the cases last first
    if (spec.type === 'Block') delete node.statements;
    if (parts.length) node.first = parts[0].first;
    rows.push(node);
    open.push(node);
  }
  if (open.length !== 1 || open[0].type !== 'Block') throw new Refusal(62, 0);
  return { root: open[0], rows };
}

export const children = node => visitorKeys[node.type].flatMap(name => node[name] ?? []);

export function walk(node, { enter, leave }) {
  const open = [{ node, parent: null, key: null }];
  for (let step = open.pop(); step; step = open.pop()) {
    const { node, parent, key, left } = step;
    if (left) { leave?.(node, parent, key); continue; }
    if (enter?.(node, parent, key) === false) continue;
    open.push({ ...step, left: true });
    const parts = visitorKeys[node.type].flatMap(key => [node[key] ?? []].flat().map(part => ({ node: part, parent: node, key })));
    open.push(...parts.reverse());
  }
}

const LOOPS = new Set(['DoWhile', 'While', 'For', 'ForOf', 'ForIn']);
export const isLoop = node => LOOPS.has(node.type);

export const labels = index => Array.from({ length: Math.floor(index.length / LINE_WORDS) },
  (_, line) => ({ label: index[3 * line], first: index[3 * line + 1], closing: index[3 * line + 2] }));

/** Of a statement or an instruction: the endings that make it, in the names of both. */
const MADE_BY = {
  If: ['If', 'Branch'], Switch: ['Switch'], DoWhile: ['DoWhile'], While: ['While'], For: ['For'], ForOf: ['ForOf'], ForIn: ['ForIn'],
    Label: ['Label'], Try: ['Try'],
  Return: ['Return'], Throw: ['Throw'], Break: ['Goto', 'Branch'], Continue: ['Goto', 'Branch'], Scope: ['Scope'], Pruned: ['PrunedScope'],
  Instr: ['Logical', 'Ternary', 'Optional', 'Sequence'],
};
/** No more blocks than these are taken for those of one row. */
const MOST_BLOCKS = 16;

export function blocksOf({ rows }, table) {
  const byId = new Map();
  const byInstruction = table.instructions.map(() => []);
  table.blocks.forEach((block, number) => {
    const key = /Scope$/.test(block.type) ? `${block.type} ${block.scope}` : `${block.type} ${block.id}`;
    byId.set(key, [...byId.get(key) ?? [], number]);
    for (let k = block.first; k < Math.min(block.first + block.count, byInstruction.length); k++) byInstruction[k].push(number);
  });
  const found = rows.map(node => {
    const inner = node.type === 'Instr' ? node.value : node;
    if (inner.type === 'Plain') return byInstruction[inner.instruction] ?? [];
    const types = (MADE_BY[(node.type)]);
    if (!types) return [];
    const made = types.flatMap(type => byId.get(`${type} ${/Scope$/.test(type) ? node.scope : node.id}`) ?? []).filter(number => {
      const block = table.blocks[number];
      if (block.type === 'Branch') return node.type !== 'If' || block.test === node.test;
      if (block.type === 'Goto') return node.type === 'Break' ? block.variant === 'Break' && block.block === node.target
        : block.variant === 'Continue';
      return (node.label === null || node.label === undefined || block.fallthrough === node.label)
        && (!('test' in node) || typeof node.test !== 'number' || block.test === node.test)
        && (!/^(Return|Throw)$/.test(node.type) || block.value === node.value);
    });
    return made.length > MOST_BLOCKS ? [] : made;
  });
  // The values of a loop belong to the blocks that its ending names for them.
  rows.forEach((node, row) => {
    if (isLoop(node)) for (const number of [...found[row]]) for (const name of ['init', 'test', 'update']) {
      const block = table.blocks[number][name], part = node[name];
      if (part && typeof block === 'number' && !found[part.row].includes(block)) found[part.row] = [...found[part.row], block];
    }
  });
  return found;
}

export function rangesOf(tree, table, blocks = blocksOf(tree, table)) {
  return tree.rows.map((node, row) => node.range ?? (node.type === 'Plain' ? table.instructions[node.instruction]?.range
    : node.type === 'Instr' ? null : table.blocks[blocks[row][0]]?.range) ?? null);
}
