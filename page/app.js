// The page: a source or a table is edited, and the proved functions answer at each key. What they answer is drawn; nothing of it is worked
// out here but where it says so.
import { parse } from 'acorn';
import { Refusal } from '../target/js/package/core.js';
import reactive from '../target/js/package/inline.js';
import { Offsets, Table, blocksOf, labels, rangesOf, readTree } from '../target/js/package/tree.js';
import { pack, unpack } from './address.js';
import { code } from './code.js';
import { all, el, one } from './dom.js';
import { Editor, lineAt, lineOf, numberPlaces } from './editor.js';
import { Graph, edgeKey } from './graph.js';
import { Lines } from './lines.js';
import { lower } from './lower.js';
import { indent, outline, svg, ways, words } from './outline.js';
import { run, takenBy } from './run.js';

const count = (n, noun) => `${n.toLocaleString('en')} ${noun}${n === 1 ? '' : 's'}`;
const short = (text, most) => text.length > most ? `${text.slice(0, most - 1)}…` : text;
const json = selector => JSON.parse(one(selector).textContent);
const examples = json('#examples'), SETTINGS = { rule: 'buildLanguage', lowers: true, values: true, tab: 'tree', answers: [], step: 0 };

/** What the page holds: `made` is what the functions answer now, `shown` the last of it that has a tree. */
const state = { ...SETTINGS, made: null, shown: null, ran: null, selected: null, hot: null, only: null, wrong: null, tree: null, name: '' };

const source = new Editor(one('#source .edit'), 'source'), table = new Editor(one('#table .edit'), 'table');

// ---- What the functions make of the text

/** `words` where the text was written from them: a table of many blocks is longer than a file may be. */
function make(text, words) {
  const made = { text };
  try {
    made.words = words ?? reactive.readTable(text);
    reactive.checkTable(made.words);
    made.table = Table.of(made.words);
    made.law = reactive.law(made.words);
    made.built = reactive[state.rule](made.words);
    made.nodes = readTree(made.built.tree, made.table);
    made.labels = labels(made.built.index);
    made.blocks = blocksOf(made.nodes, made.table);
    made.ranges = rangesOf(made.nodes, made.table, made.blocks);
  } catch (refusal) {
    if (!(refusal instanceof Refusal)) throw refusal;
    made.refusal = refusal;
  }
  if (made.table) made.other = otherRule(made);
  return made;
}
/** By the other rule: the rows that differ, or its refusal. */
function otherRule({ words, built }) {
  try {
    const { tree } = reactive[state.rule === 'build' ? 'buildLanguage' : 'build'](words), own = built?.tree ?? tree, differ = new Set();
    for (let word = 0; word < Math.max(tree.length, own.length); word++) if (tree[word] !== own[word]) differ.add(Math.floor(word / 6));
    return { differ };
  } catch (refusal) {
    if (!(refusal instanceof Refusal)) throw refusal;
    return { refusal };
  }
}

/** The words of the source's table, in walking order, where the box is ticked; null where the table's text holds. */
function lowerSource() {
  state.wrong = null;
  if (!state.lowers) return null;
  try {
    const { words } = reactive.rearrange(lower(source.text, { parse, values: state.values }));
    table.text = reactive.writeTable(words);
    return state.lowered = words;
  } catch (error) {
    if (error instanceof Refusal) state.wrong = { message: `Its table is too large. ${error.sentence.replace(/[.]$/, '')}`, pos: 0 };
    else if (typeof error.pos === 'number') state.wrong = { message: error.message.replace(/ \(\d+:\d+\)$/, ''), pos: error.pos };
    else if (error instanceof RangeError) state.wrong = { message: 'The source is nested too deep', pos: 0 };
    else throw error;
    return state.lowered;
  }
}

/** The source text of a range, in one line. */
function textOf(range) {
  const place = range && state.offsets.range(range, 'codePoint', 'utf16');
  return place && place[0] < place[1] ? source.text.slice(...place).replace(/\s+/g, ' ').replace(/;$/, '') : null;
}

function refresh() {
  const begun = performance.now();
  const lowered = lowerSource();
  state.offsets = new Offsets(source.text);
  const made = state.made = make(table.text, lowered), took = performance.now() - begun;
  if (made.table) {
    graph.set(made.table, block => textsOfBlock(made.table, block), (test, place) => caseText(made.table, test, place));
    state.graphed = made;
  }
  if (made.nodes) state.shown = made;
  if (state.only !== null && state.shown) showStatement(state.only, true);
  one('#graph .view').classList.toggle('stale', !made.table || Boolean(state.wrong));
  for (const view of all('.lines')) view.classList.toggle('stale', !made.nodes || Boolean(state.wrong));
  one('#old').hidden = !(made.refusal?.code === 50 && /\bspan$/.test(made.text.slice(0, made.refusal.at + 4)));
  drawTree();
  tell();
  runAgain(false);
  one('#took').textContent = `functions ${took.toFixed(1)} ms, drawing ${(performance.now() - begun - took).toFixed(0)} ms`;
  saveSoon();
}

function textsOfBlock(table, number) {
  const { first, count } = table.blocks[number];
  return table.instructions.slice(first, first + count).map(({ range }) => textOf(range)).filter(text => text !== null);
}
function caseText(table, test, place) {
  const text = textOf(table.instructions.find(({ lvalue }) => lvalue === test)?.range ?? null);
  return text === null ? `case ${place}` : short(text, 14);
}

// ---- In words

const RULES = { build: 'By the Rust’s rule', buildLanguage: 'By JavaScript’s rule' };
const LAWS = {
  none: 'No theorem says how this tree runs.',
  plain: 'Proved: this tree runs as the blocks do.',
  switches: 'Proved, with switches: this tree runs as the blocks do.',
  loops: 'Proved, with loops and switches: this tree runs as the blocks do.',
  values: 'Proved, with values: this tree runs as the blocks do, stores of values aside.',
};
function tell() {
  const { made, wrong } = state, told = one('#told'), say = (...parts) => told.replaceChildren(el('p', {}, ...parts));
  const more = text => [' ', el('span', { class: 'more' }, text)];
  if (wrong) {
    const { line, column } = lineAt(source.text, wrong.pos);
    return say(el('span', { class: 'refusal' }, `Source, line ${line}, column ${column}: ${wrong.message}.`),
      more('The table is that of the last source that could be read.'));
  }
  if (made.refusal) {
    const { at, unit, code, sentence, advice } = made.refusal, place = placeInWords(made);
    const isEmpty = code === 50 && made.text.trim() === '';
    if (isEmpty) return say(more('Type a small JavaScript, or paste a table.'));
    return say(el('span', { class: 'refusal' }, `Refused with ${code}${unit === null ? '' : ` at ${unit} ${at}`}: ${sentence}`),
      more(`${place}${advice}${/[.]$/.test(advice) ? '' : '.'}`));
  }
  const { table, built, law, other } = made, hasSwitch = table.blocks.some(({ type }) => type === 'Switch');
  const isCovered = state.rule === 'buildLanguage' || law === 'plain' || law === 'loops' && !hasSwitch;
  say(el('b', { class: 'good' }, 'Accepted. '),
    `${count(table.blocks.length, 'block')} and ${count(table.instructions.length, 'instruction')} became `,
    `${count(built.rows, 'row')} with ${count(built.lines, 'label')}. `,
    more(`${LAWS[isCovered ? law : 'none']} ${difference(other)}${outside(table)}`));
}
/** What the other rule makes of the table. */
function difference({ refusal, differ }) {
  const rule = RULES[state.rule === 'build' ? 'buildLanguage' : 'build'];
  if (refusal) return `${rule} it is refused: ${refusal.message}`;
  return differ.size ? `${rule} ${count(differ.size, 'row')} ${differ.size === 1 ? 'is' : 'are'} another.` : `${rule} it is the same.`;
}
/** How many spans of the table are not in the source, where there is one. */
function outside({ blocks, instructions }) {
  const isOut = ({ range }) => range && !state.offsets.range(range, 'codePoint', 'utf16');
  const out = source.text === '' ? 0 : [...blocks, ...instructions].filter(isOut).length;
  return out ? ` ${count(out, 'span')} of the table ${out === 1 ? 'is' : 'are'} not in this source.` : '';
}
/** Where a refusal is, as a person finds it. */
function placeInWords({ refusal, text, table }) {
  if (refusal.unit === 'byte') {
    const { line, column } = lineAt(text, refusal.at);
    return `Line ${line}, column ${column}${refusal.at >= text.length ? ', the end of the text' : ''}. `;
  }
  if (refusal.unit === 'block' && table?.blocks[refusal.at]) return `Block ${refusal.at} ends in ${table.blocks[refusal.at].type}. `;
  return '';
}

// ---- The tree

const classesOf = row => [state.marks.rows.get(row), state.shown?.other?.differ?.has(row) && 'parted'].filter(Boolean).join(' ');
const tree = new Lines(one('#tree'), k => {
  const { node, depth, role } = state.tree.lines[k], text = textOf(state.shown.ranges[node.row]);
  const item = el('li', { role: 'treeitem', id: `row-${node.row}`, 'aria-level': depth + 1, 'data-r': node.row,
    'class': classesOf(node.row) },
    el('span', { class: 'n' }, String(node.row)),
    el('span', { class: 'w' }, role ? [el('i', {}, role), ' '] : [], el('b', {}, node.type.toUpperCase()), ' ',
      words(node).map(part => typeof part === 'string' ? part : labelButton(part))),
    text === null ? null : el('q', {}, short(text, 70)));
  item.children[1].style.paddingLeft = indent(depth);
  item.children[1].style.minWidth = `calc(${indent(state.tree.deepest)} + 17em)`;
  return item;
}, (from, to) => svg(state.tree.ways, from, to, (state.tree.deepest + 1) * 1.5, classesOf));
const codeLines = new Lines(one('#code'), k => {
  const { depth, parts } = state.tree.code[k], rows = rowsOfLine(state.tree.code[k]);
  const item = el('li', { role: 'option', id: `line-${k}`, 'data-k': k, 'data-r': rows[0] ?? null, 'class': classesOfLine(rows) },
    el('span', { class: 'n' }, String(k + 1)),
    el('span', { class: 'w' }, parts.map(part => typeof part === 'string' ? part : part.label !== undefined ? labelButton(part)
      : el('span', { 'data-r': part.row, 'class': `t ${state.marks.rows.get(part.row) ?? ''}` }, part.text))));
  item.children[1].style.paddingLeft = `${depth * 2}ch`;
  return item;
});
const labelButton = ({ label, text }) => {
  if (!state.shown.labels.some(line => line.label === label)) return text;
  const [, before = '', words, after = ''] = text.match(/^(\s*)(.*?)(:? *)$/);
  return [before, el('button', { type: 'button', 'class': 'label', tabindex: -1, 'data-label': label,
    title: `Show the statement with label ${label} alone` }, words), after];
};
const rowsOfLine = line => line.parts.map(part => part.row).filter(row => row !== undefined);
const classesOfLine = rows => [['now', 'on', 'hot'].find(name => rows.some(row => state.marks.rows.get(row) === name)),
  rows.some(row => state.shown?.other?.differ?.has(row)) && 'parted'].filter(Boolean).join(' ');

function drawTree() {
  const { shown, only } = state;
  if (!shown) {
    state.tree = { lines: [], ways: { bars: [], arrows: [] }, code: [], deepest: 0 };
  } else {
    const root = only === null ? shown.nodes.root : shown.nodes.rows[only.closing], lines = outline(root);
    const body = root.type === 'Block' ? root : { type: 'Block', row: root.row, body: [root] };
    state.tree = { lines, ways: ways(lines), deepest: lines.reduce((most, { depth }) => Math.max(most, depth), 0),
      at: new Map(lines.map(({ node }, at) => [node.row, at])) };
    Object.defineProperty(state.tree, 'code', { get() { // printed when it is looked at
      const rangeOf = node => shown.ranges[node.type === 'Instr' && node.value.type === 'Plain' ? node.value.row : node.row];
      const printed = code({ root: body }, node => textOf(shown.ranges[node.row]), rangeOf);
      Object.defineProperty(this, 'code', { value: printed });
      return printed;
    }, configurable: true });
  }
  mark();
  drawLines();
  one('#all').hidden = only === null;
  one('#only').textContent = only === null ? '' : `Statement ${only.label}: ${count(only.closing - only.first + 1, 'row')}`;
}
function drawLines() {
  for (const tab of all('[data-tab]')) {
    const isOn = tab.dataset.tab === state.tab;
    tab.setAttribute('aria-selected', isOn);
    tab.tabIndex = isOn ? 0 : -1;
    one(`#${tab.dataset.tab}`).hidden = !isOn;
  }
  one('#result .key').hidden = state.tab !== 'tree';
  if (state.tab === 'tree') tree.set(state.tree.lines.length);
  else codeLines.set(state.tree.code.length);
}

/** The rows of the statement that has a label, by the proved lookup. */
function showStatement({ label }, isAgain = false) {
  try {
    state.only = { label, ...reactive.lookup(state.shown.built, label) };
    if (!isAgain) state.selected = { rows: [state.only.closing] };
  } catch (refusal) {
    if (!(refusal instanceof Refusal)) throw refusal;
    state.only = null;
  }
}

// ---- What is marked: what a pointer is on, a selection, the step of the run, a refusal

const graph = new Graph(one('#graph .view'), {
  block: number => state.made?.refusal?.unit === 'block' && state.made.refusal.at === number
    || state.made?.other?.refusal?.unit === 'block' && state.made.other.refusal.at === number
    ? 'refused' : state.marks.blocks.get(number) ?? '',
  taken: key => state.marks.taken.has(key),
});
state.marks = { rows: new Map(), blocks: new Map(), taken: new Set() };

/** What belongs to a thing that is pointed at: rows, blocks, ranges of the source. */
function linked(what) {
  const { shown, graphed } = state;
  const rows = what.rows ?? (shown && !state.made.refusal
    ? what.blocks.flatMap(block => shown.blocks.flatMap((blocks, row) => blocks.includes(block) ? [row] : [])) : []);
  const blocks = what.blocks ?? [...new Set(rows.flatMap(row => shown.blocks[row]))];
  const spans = what.rows ? rows.map(row => shown.ranges[row]) : blocks.flatMap(block => {
    const { first, count, range } = graphed.table.blocks[block];
    return [...graphed.table.instructions.slice(first, first + count).map(({ range }) => range), count ? null : range];
  });
  return { rows, blocks, spans: spans.filter(Boolean) };
}
function mark() {
  const { ran, made, shown, wrong } = state, inSource = [], inTable = [];
  const marks = state.marks = { rows: new Map(), blocks: new Map(), taken: new Set() };
  const put = (name, what) => {
    if (!what || !shown && !state.graphed) return;
    const { rows, blocks, spans } = linked(what);
    for (const row of rows) marks.rows.set(row, name);
    for (const block of blocks) {
      marks.blocks.set(block, name);
      if (made.table) inTable.push({ ...lineOf(made.text, 3 + block), name });
    }
    for (const span of spans) {
      const place = state.offsets.range(span, 'codePoint', 'utf16');
      if (place) inSource.push({ from: place[0], to: place[1], name });
    }
  };
  put('hot', state.hot);
  put('on', state.selected);
  const step = ran?.steps?.[state.step - 1];
  if (step && made.nodes) put('now', { rows: [step.row] });
  if (ran?.steps && made.nodes) {
    const until = ran.steps.slice(0, state.step);
    const performed = until.filter(({ asks }) => !asks).map(({ row }) => made.nodes.rows[row].instruction);
    const answers = until.filter(({ asks, answer }) => asks && answer !== undefined).map(({ answer }) => answer);
    if (state.step > 0) for (const line of takenBy(made.table, performed, answers) ?? []) marks.taken.add(edgeKey(line));
  }
  if (made?.refusal && !wrong) inTable.push(...placesOfRefusal(made));
  if (wrong) {
    const line = lineOf(source.text, lineAt(source.text, wrong.pos).line - 1);
    inSource.push({ from: Math.max(line.from, Math.min(wrong.pos, line.to - 1)), to: Math.max(wrong.pos + 1, line.from + 1), name: 'bad' });
  }
  source.mark(inSource);
  table.mark(inTable);
  paint();
}
function placesOfRefusal({ refusal: { at, unit, code }, text }) {
  if (unit === 'byte') return [{ from: Math.min(at, text.length), to: Math.max(at + 1, text.slice(at).search(/\s|$/) + at), name: 'bad' }];
  if (unit === 'block') return [{ ...lineOf(text, 3 + at), name: 'bad' }];
  const place = unit === 'word' ? numberPlaces(text)[at] : code === 3 ? numberPlaces(text)[0] : null;
  return place ? [{ ...place, name: 'bad' }] : [];
}
/** The classes of what is drawn already. */
function paint() {
  for (const item of one('#tree ol')?.children ?? []) item.className = classesOf(+item.dataset.r);
  for (const way of all('#tree [data-way]')) {
    for (const name of ['hot', 'on', 'now']) way.classList.toggle(name, state.marks.rows.get(+way.dataset.way) === name);
  }
  for (const item of one('#code ol')?.children ?? []) {
    item.className = classesOfLine(rowsOfLine(state.tree.code[+item.dataset.k] ?? { parts: [] }));
    for (const part of all('.t', item)) part.className = `t ${state.marks.rows.get(+part.dataset.r) ?? ''}`;
  }
  graph.paint();
}
/** Brings what is marked into view. */
function show(name) {
  const first = map => [...map].find(([, each]) => each === name)?.[0], row = first(state.marks.rows), block = first(state.marks.blocks);
  if (row !== undefined && state.tab === 'tree' && state.tree.at?.has(row)) tree.show(state.tree.at.get(row));
  if (row !== undefined && state.tab === 'code') {
    const line = state.tree.code.findIndex(each => rowsOfLine(each).includes(row));
    if (line >= 0) codeLines.show(line);
  }
  if (block !== undefined) graph.show(block);
  source.show(name);
  const active = row === undefined ? '' : state.tab === 'tree' ? `row-${row}` : '';
  if (active) one('#tree').setAttribute('aria-activedescendant', active); else one('#tree').removeAttribute('aria-activedescendant');
}
function select(what) {
  state.selected = what;
  mark();
  if (what) show('on');
}

// ---- The run

function runAgain(toEnd) {
  const { made } = state, ran = state.ran = running(made);
  one('#run').hidden = !state.shown && !ran;
  one('#steps').hidden = !ran?.steps;
  if (ran?.steps) {
    state.step = toEnd ? ran.steps.length : Math.min(state.step, ran.steps.length);
    one('#range').max = ran.steps.length;
  }
  const answers = ran?.steps ? state.answers.map((answer, k) => answerButton(answer, k, k < ran.used)) : [];
  one('#answers').replaceChildren(...answers.length ? ['answers ', ...answers] : []);
  const nothing = [el('span', { class: 'note' }, 'There is no tree to run.')];
  one('#asks').replaceChildren(...ran?.refusal ? notRun(ran.refusal) : ran?.steps ? questionOf(ran) : nothing);
  step(state.step);
}
const answerButton = (answer, k, isGiven) => el('button', { type: 'button', 'data-forget': k, 'class': isGiven ? 'given' : '',
  title: 'Take back this answer and those after it' }, String(answer));
function running(made) {
  if (!made.built) return null;
  try { return run(reactive, made, state.answers); } catch (refusal) {
    if (!(refusal instanceof Refusal)) throw refusal;
    return { refusal };
  }
}
function notRun(refusal) {
  const { type } = refusal.code === 64 ? state.made.nodes.rows[refusal.at] : {}, isValue = /^(Logical|Cond|Optional)$/.test(type);
  const because = type ? `Row ${refusal.at} is ${type.toUpperCase()}, which the runner leaves out.` : refusal.message;
  const why = el('span', {}, `This tree is not run. ${because} `);
  return isValue && state.lowers ? [why, el('button', { type: 'button', id: 'whole' }, 'Keep expressions whole, to run it')] : [why];
}
function questionOf({ pending, reason, isUnknown }) {
  const button = (answer, name) => el('button', { type: 'button', 'data-answer': answer }, name);
  if (isUnknown) return ['A row asks. ', button(1, 'yes'), button(0, 'no')];
  if (!pending) return [{ return: 'It returns.', throw: 'It throws.', end: 'The end of the tree is reached.' }[reason]];
  const text = textOf(rangeOfQuestion(pending)), told = text === null ? '' : el('q', {}, short(text, 34));
  const what = el('span', {}, el('b', {}, pending.type.toUpperCase()), ` of row ${pending.row} asks `, told);
  if (pending.type !== 'Switch') return [what, button(1, 'yes'), button(0, 'no')];
  const table = state.made.table, names = pending.cases.map(({ test }, k) => test === null ? 'default' : caseText(table, test, k));
  const buttons = names.map((name, k) => button(k, name)), hasDefault = pending.cases.some(({ test }) => test === null);
  return [what, ...buttons, hasDefault ? '' : button(names.length, 'no case')];
}
/** The range of what asks: of a loop its test's, of an If and a Switch that of the instruction whose place they test. */
function rangeOfQuestion(node) {
  const { made } = state;
  if (typeof node.test === 'number') return made.table.instructions.find(({ lvalue }) => lvalue === node.test)?.range ?? null;
  const rows = made.nodes.rows.slice(node.test.first, node.test.row + 1).filter(({ type }) => type === 'Plain');
  return rows.length === 1 ? made.ranges[rows[0].row] : made.table.blocks[made.blocks[node.test.row].at(-1)]?.range ?? null;
}
function step(to) {
  const { ran, made } = state;
  if (ran?.steps) {
    const n = ran.steps.length, at = state.step = Math.max(0, Math.min(n, to)), now = ran.steps[at - 1];
    const told = now ? [`Step ${at} of ${n}: `, ...stepInWords(now, made.nodes.rows[now.row])]
      : [n ? `Before the first of ${count(n, 'step')}` : 'No step'];
    one('#range').value = at;
    one('#said').replaceChildren(...told);
    for (const name of ['first', 'back']) one(`[data-step="${name}"]`).disabled = at === 0;
    for (const name of ['on', 'last']) one(`[data-step="${name}"]`).disabled = at === n;
  }
  mark();
  if (state.step > 0) show('now');
  saveSoon();
}
function stepInWords({ row, asks, answer }, node) {
  const text = textOf(state.made.ranges[row]);
  if (!asks) return [`instruction ${node.instruction} `, text === null ? '' : el('q', {}, short(text, 60))];
  const given = answer === undefined ? '' : node.type === 'Switch' ? `, case ${answer}` : answer ? ', yes' : ', no';
  return [`${node.type.toUpperCase()} of row ${row} asks${given}`];
}
function answer(number) {
  state.answers = [...state.answers.slice(0, state.ran.used), number];
  runAgain(true);
  saveSoon();
}

// ---- The state in the address

let saving;
function saveSoon() {
  clearTimeout(saving);
  saving = setTimeout(() => save().catch(() => {}), 400);
}
async function save() {
  const { rule, lowers, values, tab, answers, step, name } = state;
  const hash = await pack({ source: source.text, table: lowers ? '' : table.text, rule, lowers, values, tab, answers, step, name });
  if (hash === null) return false;
  saved = `#${hash}`;
  history.replaceState(null, '', saved);
  return true;
}
let saved = '';
function open(what) {
  const { source: text = '', table: rows = '', answers = [], name = '' } = what;
  Object.assign(state, SETTINGS, { rule: what.rule === 'build' ? 'build' : 'buildLanguage', tab: what.tab === 'code' ? 'code' : 'tree',
    values: what.values !== false, lowers: what.lowers ?? !rows },
    { answers: Array.isArray(answers) ? answers.filter(each => Number.isInteger(each) && each >= 0 && each < 2 ** 32).slice(0, 65536) : [],
      step: Number(what.step) || 0, name: String(name) },
    { selected: null, only: null, hot: null, shown: null, graphed: null, lowered: null });
  graph.key = null;
  one('#graph .view').replaceChildren();
  source.text = String(text);
  table.text = String(rows);
  one('#lowers').checked = state.lowers;
  one('#values').checked = state.values;
  one(`[name=rule][value=${state.rule}]`).checked = true;
  document.title = `${state.name || 'build_reactive_function'}`;
  refresh();
  if (state.made.refusal?.unit === 'block') graph.show(state.made.refusal.at);
  source.show('bad');
  table.show('bad');
}
async function openAddress() {
  if (location.hash === saved && saved) return;
  const asked = new URLSearchParams(location.hash.slice(1)), given = json('#given'), step = asked.get('step');
  const packed = asked.has('s') ? await unpack(asked.get('s')) : null, first = Object.keys(examples)[0];
  const example = asked.has('example') && Object.hasOwn(examples, asked.get('example')) ? asked.get('example') : first;
  one('#example').value = example;
  open({ ...packed ?? (given.table !== undefined || given.source !== undefined ? given : { ...examples[example], name: example }),
    ...step === null ? {} : { step } });
}

// ---- Keys, clicks, pointers

document.addEventListener('click', event => {
  const target = event.target.closest('button, [data-r], [data-b]');
  if (!target) return;
  const { dataset, id } = target;
  if (dataset.label !== undefined) {
    if (state.only === null || +dataset.label !== state.only.label) showStatement({ label: +dataset.label });
    drawTree();
    show('on');
  } else if (dataset.step) step({ first: 0, back: state.step - 1, on: state.step + 1, last: Infinity }[dataset.step]);
  else if (dataset.answer) answer(+dataset.answer);
  else if (dataset.forget) {
    state.answers.length = +dataset.forget;
    runAgain(true);
    saveSoon();
  } else if (dataset.zoom) {
    graph.isFit = false;
    if (+dataset.zoom) graph.zoom(graph.scale * +dataset.zoom); else graph.fit();
  } else if (dataset.tab) chooseTab(dataset.tab);
  else if (id === 'all') showAll();
  else if (id === 'whole') {
    state.values = one('#values').checked = false;
    refresh();
  } else if (id === 'old' || id === 'order' && state.made.words) changeTable(id === 'old' ? () => reactive.oldToNew(table.text)
    : () => reactive.writeTable(reactive.rearrange(state.made.words).words));
  else if (id === 'link') copyLink();
  else if (dataset.b !== undefined) select({ blocks: [+dataset.b] });
  else if (dataset.r !== undefined) select({ rows: [+dataset.r] });
});
function showAll() {
  state.only = null;
  drawTree();
  if (state.selected) show('on');
}
function chooseTab(tab) {
  state.tab = tab;
  drawLines();
  paint();
  if (state.selected) show('on'); else if (state.step) show('now');
  saveSoon();
}
function setLowers(lowers) {
  state.lowers = one('#lowers').checked = lowers;
}
function changeTable(change) {
  try {
    const text = change();
    setLowers(false);
    table.text = text;
    refresh();
  } catch (refusal) {
    if (!(refusal instanceof Refusal)) throw refusal;
    one('#told').replaceChildren(el('p', { class: 'refusal' }, refusal.message));
  }
}
async function copyLink() {
  clearTimeout(saving);
  const button = one('#link'), isSaved = await save();
  const copied = isSaved && await navigator.clipboard?.writeText(location.href).then(() => true, () => false);
  button.textContent = !isSaved ? 'Too long for an address' : copied ? 'Copied' : 'It is in the address bar';
  setTimeout(() => { button.textContent = 'Copy link'; }, 1600);
}
function edited(editor) {
  state.selected = state.hot = null;
  if (editor === table) setLowers(false);
  refresh();
}
source.onInput = () => edited(source);
table.onInput = () => edited(table);
source.onPlace = at => { // the shortest range around the place selects its rows
  const { shown, made } = state, place = state.offsets.convert(at, 'utf16', 'codePoint');
  if (!shown || !made.nodes) return;
  const around = shown.ranges.map((range, row) => ({ range, row })).filter(({ range }) => range && range[0] <= place && place < range[1]);
  const least = Math.min(...around.map(({ range: [from, to] }) => to - from));
  const rows = around.filter(({ range: [from, to] }) => to - from === least).map(({ row }) => row);
  select(rows.length ? { rows } : null);
};
table.onPlace = at => { // the line of a block selects it
  const block = lineAt(table.text, at).line - 4;
  if (state.made.table?.blocks[block]) select({ blocks: [block] });
};
one('#lowers').addEventListener('change', event => { state.lowers = event.target.checked; refresh(); });
one('#values').addEventListener('change', event => { state.values = event.target.checked; refresh(); });
for (const radio of all('[name=rule]')) radio.addEventListener('change', () => { state.rule = radio.value; refresh(); });
one('#example').append(...Object.keys(examples).map(name => el('option', {}, name)));
one('#example').addEventListener('change', event => open({ ...examples[event.target.value], name: event.target.value }));
one('#range').addEventListener('input', event => step(+event.target.value));

let pointed = 'undefined undefined';
document.addEventListener('mouseover', event => {
  const { r: row, b: block } = event.target.closest?.('#tree li, #code .t, #code li, .block')?.dataset ?? {}, key = `${row} ${block}`;
  if (key === pointed) return;
  pointed = key;
  state.hot = block !== undefined ? { blocks: [+block] } : row !== undefined && state.shown ? { rows: [+row] } : null;
  mark();
});

/** Up and down in a list: the row or block after what is selected. */
function move(view, by) {
  const { selected } = state;
  if (view.id === 'tree' || view.id === 'code') {
    const lines = view.id === 'tree' ? state.tree.lines.map(({ node }) => [node.row]) : state.tree.code.map(rowsOfLine);
    const at = lines.findIndex(rows => rows.includes(selected?.rows?.[0]));
    let next = at < 0 ? (by > 0 ? 0 : lines.length - 1) : at + by;
    while (lines[next]?.length === 0) next += by;
    if (lines[next]) select({ rows: [lines[next][0]] });
  } else {
    const boxes = graph.drawn?.boxes ?? [], at = boxes.findIndex(({ box }) => box === selected?.blocks?.[0]);
    const next = boxes[at < 0 ? 0 : at + by];
    if (next) select({ blocks: [next.box] });
  }
}
document.addEventListener('keydown', event => {
  const { key, target } = event;
  if (event.altKey || event.ctrlKey || event.metaKey || event.isComposing) return;
  if (key === 'Escape') {
    if (target.matches('textarea')) target.blur();
    state.selected = state.hot = null;
    showAll();
    mark();
    return;
  }
  if (target.matches('textarea, select, input')) return;
  const { ran } = state, view = target.closest('.view');
  if (target.matches('[role=tab]') && /^Arrow(Left|Right)$/.test(key)) {
    chooseTab(state.tab === 'tree' ? 'code' : 'tree');
    one(`#tab-${state.tab}`).focus();
  } else if (view && (key === 'ArrowDown' || key === 'ArrowUp')) move(view, key === 'ArrowDown' ? 1 : -1);
  else if (view && key === 'Enter') {
    const node = state.shown?.nodes.rows[state.selected?.rows?.[0]];
    const label = node && (node.type === 'Break' || node.type === 'Continue' ? node.target : node.label);
    if (typeof label !== 'number') return;
    showStatement({ label });
    drawTree();
    show('on');
  } else if (key === 'ArrowRight') step(state.step + 1);
  else if (key === 'ArrowLeft') step(state.step - 1);
  else if (ran?.pending && ran.pending.type !== 'Switch' && /^[yn]$/.test(key)) answer(key === 'y' ? 1 : 0);
  else if (ran?.pending?.type === 'Switch' && /^\d$/.test(key) && +key <= ran.pending.cases.length) answer(+key);
  else return;
  event.preventDefault();
});

// All of it for the printer.
addEventListener('beforeprint', () => {
  graph.draw(true, true);
  codeLines.set(state.tree.code.length);
  codeLines.draw(true, true);
});
addEventListener('afterprint', () => {
  graph.draw(true);
  drawLines();
});
addEventListener('hashchange', openAddress);
// What no part of the page expects is told, and not only to the console.
for (const name of ['error', 'unhandledrejection']) addEventListener(name, event => {
  one('#told').replaceChildren(el('p', { class: 'refusal' },
    `This page has failed: ${event.message ?? event.reason?.message ?? event.reason}`));
});

openAddress().then(() => { document.body.dataset.ready = 'yes'; });
