// The tree as an outline: a line for each row, a statement before its parts, these in source order; an arrow leads from each jump to the
// end of its target (break) or to its head (continue), with a bridge over each loop that it leaves.
import { isLoop, visitorKeys } from '../target/js/package/tree.js';
import { el } from './dom.js';
import { LINE } from './lines.js';

const LEVEL = 1.5, PLAIN_ROLES = new Set(['value', 'cases', 'instructions']);

/** The lines of a statement: node, depth, what it is to the statement around it, and where its own lines end. */
export function outline(root) {
  const lines = [], open = [{ node: root, depth: 0, role: '', around: null }];
  while (open.length) {
    const line = open.pop(), { node, depth } = line;
    line.at = lines.length;
    line.end = line.at + node.row - node.first + 1;
    lines.push(line);
    const parts = visitorKeys[node.type].flatMap(role => [node[role] ?? []].flat().map(part => {
      const isNamed = !(PLAIN_ROLES.has(role) || role === 'body' && !isLoop(node));
      return { node: part, depth: depth + 1, role: isNamed ? role : '', around: line };
    }));
    open.push(...parts.reverse());
  }
  return lines;
}

/** The arrows, and the bars of the loops: each with its first and its last line. */
export function ways(lines) {
  const bars = [], arrows = [];
  for (const line of lines) {
    const { node, at, end, depth } = line;
    if (isLoop(node)) bars.push({ from: at, to: end, depth });
    if (node.type !== 'Break' && node.type !== 'Continue') continue;
    const around = [];
    for (let up = line.around; up; up = up.around) around.push(up);
    const loops = around.filter(up => isLoop(up.node)), target = around.find(up => up.node.label === node.target) ?? loops[node.loopsLeft];
    if (!target) continue; // the target is not shown
    const isBack = node.type === 'Continue';
    arrows.push({ node, at, depth, isBack, crossed: loops.slice(0, node.loopsLeft).map(loop => loop.depth), target,
      from: isBack ? target.at : at, to: isBack ? at : target.end });
  }
  return { bars, arrows };
}

const bar = depth => depth * LEVEL + 0.3, k = n => n.toFixed(2);
/** What of it lies over these lines. */
export function svg({ bars, arrows }, from, to, width, classOf) {
  const meets = part => part.from < to && part.to >= from, height = (to - from) * LINE;
  const shape = el('svg', { class: 'ways', viewBox: `0 ${k(from * LINE)} ${k(width)} ${k(height)}`, 'aria-hidden': 'true' },
    bars.filter(meets).map(({ from, to, depth }) => el('path',
      { class: 'bar-of', d: `M${k(bar(depth))} ${k((from + 1) * LINE)}V${k(to * LINE - 0.2)}h.15` })),
    arrows.filter(meets).map(({ node, at, depth, isBack, crossed, target }) => {
      const x = target.depth * LEVEL + (isBack ? 1.1 : 0.7), y = (at + 0.5) * LINE, [turn, tip] = isBack
        ? [-0.2, (target.at + 1) * LINE + 0.04] : [0.2, target.end * LINE - 0.04];
      const bridges = crossed.map(depth => `H${k(bar(depth) + 0.26)}a.26 .26 0 0 0 -.52 0`).join('');
      return el('g', { 'class': `${isBack ? 'continue' : 'break'}${node.kind === 'Implicit' ? ' implicit' : ''} ${classOf(node.row)}`,
        'data-way': node.row },
        el('path', { d: `M${k(depth * LEVEL - 0.12)} ${k(y)}${bridges}H${k(x + 0.2)}q-.2 0 -.2 ${turn}V${k(tip)}` }),
        el('path', { class: 'tip', d: `M${k(x - 0.2)} ${k(tip - 1.3 * turn)}L${k(x)} ${k(tip)}l.2 ${k(-1.3 * turn)}` }));
    }));
  Object.assign(shape.style, { width: `${width}em`, height: `${height}em`, top: `${from * LINE}em` });
  return shape;
}
export const indent = depth => `${depth * LEVEL}em`;

/** A row in words: parts that are texts, and `{label, text}` for a label. */
export function words(node) {
  const place = n => `place ${n}`, id = `id ${node.id}`, count = (n, noun) => `${n} ${noun}${n === 1 ? '' : 's'}`;
  const jump = () => [['to ', { label: node.target, text: String(node.target) }],
    node.kind + (node.loopsLeft ? `, over ${count(node.loopsLeft, 'loop')}` : ''), id];
  const own = {
    Plain: () => [`instruction ${node.instruction}`], Load: () => [place(node.place)], Undef: () => [],
      Instr: () => [id, place(node.lvalue)],
    Seq: () => [`of ${node.instructions.length}`], Logical: () => [node.operator], Cond: () => [],
      Optional: () => [node.optional ? '?.' : 'after ?.'],
    Block: () => [`of ${node.body.length}`], If: () => [place(node.test), id],
      Case: () => [node.test === null ? 'default' : place(node.test)],
    Switch: () => [place(node.test), count(node.cases.length, 'case'), id], Scope: () => [`scope ${node.scope}`],
      Pruned: () => [`scope ${node.scope}`],
    Return: () => [place(node.value), id], Throw: () => [place(node.value), id], Break: jump, Continue: jump,
  }[node.type]?.() ?? [id];
  if (typeof node.label === 'number') own.push([{ label: node.label, text: `label ${node.label}` }]);
  return own.flatMap((part, k) => k ? [', ', part] : [part]).flat();
}
