// The run of a tree by the proved runner, with the row of each step and the row that asks. The runner tells instructions and why it stops;
// so it runs a copy of the tree in which a PLAIN has its row's number and a marked instruction stands before each question, and that run is
// held to the run of the tree itself. And the run of the blocks, to mark the lines that it takes.
import { ROW_WORDS } from '../target/js/package/core.js';

const MARK = 2048, MOST_ROWS = 2048, MOST_BLOCKS_RUN = 20000;
const asks = node => node.type === 'If' || node.type === 'Switch';

function markedTree({ root }, tree) {
  const out = [], row = (...words) => out.push(...words, ...Array(ROW_WORDS - words.length).fill(0));
  const mark = node => { row(1, MARK + node.row); row(4); };
  const own = node => Array.from(tree.subarray(ROW_WORDS * node.row, ROW_WORDS * (node.row + 1)));
  const put = (node, key, parent) => {
    if (asks(node)) mark(node);
    if (node.type === 'Switch') for (const one of node.cases.slice().reverse()) put(one);
    else for (const name of KEYS[node.type] ?? []) for (const part of [node[name] ?? []].flat()) put(part, name, node);
    const words = own(node);
    if (node.type === 'Plain') words[1] = node.row;
    if (node.type === 'Block') words[1] += node.body.filter(asks).length;
    row(...words);
    if (key === 'test' && parent && /^(While|DoWhile|For)$/.test(parent.type)) {
      // the test, then the mark, then any value: SEQ of two INSTRs and a LOAD
      row(4);
      mark(parent);
      row(2);
      row(5, 2);
    }
  };
  put(root);
  return Uint32Array.from(out);
}
/** The parts of a node in the order of the rows. */
const KEYS = {
  Instr: ['value'], Seq: ['instructions', 'value'], Logical: ['left', 'right'], Cond: ['test', 'consequent', 'alternate'],
    Optional: ['value'], Block: ['body'],
  If: ['consequent', 'alternate'], Case: ['body'], DoWhile: ['body', 'test'], While: ['test', 'body'],
    For: ['init', 'test', 'update', 'body'],
  ForOf: ['init', 'test', 'body'], ForIn: ['init', 'body'], Label: ['body'], Try: ['block', 'handler'], Scope: ['body'], Pruned: ['body'],
};

/** The steps ({row, asks, answer}), why it stops, the node that asks for an answer that is missing, and how many answers were taken. */
export function run(reactive, { built, nodes }, answers) {
  const { performed, reason } = reactive.runTree(built.tree, answers), marked = markedTree(nodes, built.tree), rowOf = new Map();
  if (marked.length > MOST_ROWS * ROW_WORDS) {
    nodes.rows.forEach(node => { if (node.type === 'Plain' && !rowOf.has(node.instruction)) rowOf.set(node.instruction, node.row); });
    return { steps: Array.from(performed, word => ({ row: rowOf.get(word) })), reason, pending: null, isUnknown: reason === 'no answer',
      used: answers.length };
  }
  const trace = reactive.runTree(marked, answers);
  let used = 0;
  const steps = Array.from(trace.performed, word => word < MARK ? { row: word }
    : { row: word - MARK, asks: true, answer: answers[used++] });
  const plain = steps.filter(step => !step.asks).map(({ row }) => nodes.rows[row].instruction);
  if (plain.join() !== performed.join() || reason !== trace.reason) throw new Error('the marked run is another');
  const pending = reason === 'no answer' ? nodes.rows[steps.at(-1).row] : null;
  return { steps, reason, pending, used: pending ? used - 1 : used };
}

/** The lines that the blocks' run takes, as `from to role`, until they have performed so many instructions of these and taken so many
 * answers; null where they perform others. */
export function takenBy(table, performed, answers) {
  const taken = [];
  let block = table.entry, done = 0, used = 0;
  for (let count = 0; count < MOST_BLOCKS_RUN; count++) {
    const row = table.blocks[block];
    for (let k = row.first; k < row.first + row.count; k++) {
      if (done === performed.length) return taken;
      if (performed[done++] !== k) return null;
    }
    const next = follow(table, row, () => used < answers.length ? answers[used++] : null);
    if (next === null) return taken;
    taken.push({ from: block, ...next });
    block = next.to;
  }
  return taken;
}

function follow(table, row, answer) {
  const by = role => ({ to: row[role], role });
  switch (row.type) {
    case 'Goto': case 'Label': case 'Scope': case 'PrunedScope': return by('block');
    case 'While': case 'DoWhile': return by(row.type === 'While' ? 'test' : 'loop');
    case 'For': return by('init');
    case 'MaybeThrow': return by('continuation');
    case 'If': case 'Branch': {
      const given = answer();
      return given === null ? null : by(given ? 'consequent' : 'alternate');
    }
    case 'Switch': {
      const given = answer();
      if (given === null) return null;
      return given < row.caseCount ? { to: table.cases[row.firstCase + given].block, role: 'case', place: given } : by('fallthrough');
    }
    default: return null;
  }
}
