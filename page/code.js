// A tree as code in the way of JavaScript, for reading: labels, breaks and continues as they would be printed. An instruction is its text
// in the source, or `i7` without one. What is worked out for one use alone stands where it is used.
import { walk } from '../target/js/package/tree.js';

const SIMPLE = /^(?:[\w$.]+(?:\([^()]*\))?|'[^']*'|"[^"]*")$/;

/** Lines: {depth, parts}, a part being a text, {row, text}, or {row, text, label}. `textOf` gives the source text of a node, or null;
 * `rangeOf` its range. */
export function code(tree, textOf, rangeOf) {
  const uses = usesOf(tree.root);
  for (const kept = new Set(); ;) { // again without what was left out, if its use is not printed
    const printer = new Printer(textOf, rangeOf, uses, kept);
    printer.block(tree.root, 0);
    if (printer.waiting.size === 0) return printer.lines;
    for (const place of printer.waiting.keys()) kept.add(place);
  }
}

/** How often each place is used. */
function usesOf(root) {
  const uses = new Map(), use = place => { if (place !== null) uses.set(place, (uses.get(place) ?? 0) + 1); };
  walk(root, {
    enter(node) {
      if (node.type === 'Load') use(node.place);
      else if (node.type === 'If' || node.type === 'Switch' || node.type === 'Case') use(node.test);
      else if (node.type === 'Return' || node.type === 'Throw') use(node.value);
    },
  });
  return uses;
}

/** The labels that a Labeled jump names. */
function namedLabels(root) {
  const labels = new Set();
  walk(root, { enter(node) { if ((node.type === 'Break' || node.type === 'Continue') && node.kind === 'Labeled') labels.add(node.target);
    } });
  return labels;
}

/** The instructions of a value that is a sequence. */
const inner = value => value.type === 'Seq' ? value.instructions : [];

/** So many instructions behind a value may be the one that has its text too. */
const NEAR = 8;

class Printer {
  lines = [];
  /** Places whose value waits for its use: the parts of its text. */
  waiting = new Map();

  constructor(textOf, rangeOf, uses, kept) { Object.assign(this, { textOf, rangeOf, uses, kept }); }

  line(depth, ...parts) { this.lines.push({ depth, parts: parts.flat(Infinity) }); }

  block({ body, row }, depth) {
    this.labels ??= namedLabels({ type: 'Block', body, row });
    body.forEach((node, k) => { if (!this.isCovered(node, body, k)) this.statement(node, depth); });
  }
  /** Whether a value is used by no place, and stands in the text of an instruction soon after it. */
  isCovered(node, list, k) {
    if (node.type !== 'Instr' || this.uses.has(node.lvalue)) return false;
    const own = this.rangeOf(node);
    return own !== null && list.slice(k + 1, k + 1 + NEAR).some(next => {
      const range = next.type === 'Instr' ? this.rangeOf(next) : null;
      return range !== null && range[0] <= own[0] && own[1] <= range[1] && range[1] - range[0] > own[1] - own[0];
    });
  }

  /** The text of a value. */
  value(node) {
    switch (node.type) {
      case 'Plain': return [{ row: node.row, text: this.textOf(node) ?? `i${node.instruction}` }];
      case 'Load': return this.use(node.place, node.row);
      case 'Undef': return [];
      case 'Logical': return [this.operand(node.left), { row: node.row, text: ` ${node.operator} ` }, this.operand(node.right)];
      case 'Cond': return [this.operand(node.test), { row: node.row, text: ' ? ' }, this.operand(node.consequent),
        { row: node.row, text: ' : ' }, this.operand(node.alternate)];
      case 'Optional': { // the text behind the `?.` is that of the whole
        const parts = this.value(node.value).flat(Infinity), isText = parts.length === 1 && parts[0].text?.includes('?.');
        return isText ? parts : [{ row: node.row, text: 'optional(' }, parts, { row: node.row, text: ')' }];
      }
      case 'Seq': {
        const last = node.instructions.at(-1), isLast = node.value.type === 'Load' && last?.lvalue === node.value.place,
          list = isLast ? node.instructions.slice(0, -1) : node.instructions;
        const before = list.filter((part, k) => !this.isCovered(part, [...list.slice(0, k + 1), ...node.instructions.slice(k + 1),
          ...inner(node.value)], k)).map(part => this.instruction(part));
        const all = [...before.filter(Boolean), this.value(isLast ? last.value : node.value)].filter(parts => parts.length);
        return all.flatMap((parts, k) => k ? [', ', parts] : [parts]);
      }
      default: throw new Error(`${node.type} is no value`);
    }
  }
  operand(node) {
    const parts = this.value(node).flat(Infinity), text = parts.map(part => part.text ?? part).join('');
    return SIMPLE.test(text) ? parts : ['(', parts, ')'];
  }
  use(place, row) {
    const parts = this.waiting.get(place);
    this.waiting.delete(place);
    return parts ?? [{ row, text: `t${place}` }];
  }
  /** The text of an instruction, or nothing where it waits for its use. */
  instruction(node) {
    const whole = this.value(node.value), times = this.uses.get(node.lvalue) ?? 0;
    if (times === 1 && !this.kept.has(node.lvalue) && !this.waiting.has(node.lvalue)) {
      this.waiting.set(node.lvalue, whole);
      return null;
    }
    return times > 0 ? [{ row: node.row, text: `t${node.lvalue} = ` }, whole] : whole;
  }

  statement(node, depth) {
    const at = text => ({ row: node.row, text }), label = node.label !== undefined && this.labels.has(node.label)
      ? [{ label: node.label, row: node.row, text: `L${node.label}: ` }] : [];
    const inner = (block, end = '}') => {
      this.block(block, depth + 1);
      if (end) this.line(depth, end);
    };
    switch (node.type) {
      case 'Instr': {
        const parts = this.instruction(node)?.flat(Infinity);
        if (parts?.length) this.line(depth, parts, ';');
        return;
      }
      case 'If':
        this.line(depth, label, at('if ('), this.use(node.test, node.row), at(') {'));
        inner(node.consequent, node.alternate ? null : '}');
        if (node.alternate) {
          this.line(depth, '} else {');
          inner(node.alternate);
        }
        return;
      case 'Switch':
        this.line(depth, label, at('switch ('), this.use(node.test, node.row), at(') {'));
        for (const one of node.cases) {
          this.line(depth + 1, ...one.test === null ? [{ row: one.row, text: 'default:' }]
            : [{ row: one.row, text: 'case ' }, this.use(one.test, one.row), ':']);
          this.block(one.body, depth + 2);
        }
        return this.line(depth, '}');
      case 'While':
        this.line(depth, label, at('while ('), this.value(node.test), at(') {'));
        return inner(node.body);
      case 'DoWhile':
        this.line(depth, label, at('do {'));
        inner(node.body, null);
        return this.line(depth, '} while (', this.value(node.test), ');');
      case 'For':
        this.line(depth, label, at('for ('), this.value(node.init), at('; '), this.value(node.test), at('; '),
          node.update ? this.value(node.update) : [], at(') {'));
        return inner(node.body);
      case 'ForOf': case 'ForIn': {
        const list = this.value(node.init), each = node.type === 'ForOf' ? this.value(node.test) : ['…'];
        this.line(depth, label, at('for ('), each, at(node.type === 'ForOf' ? ' of ' : ' in '), list, at(') {'));
        return inner(node.body);
      }
      case 'Label':
        this.line(depth, label, at('{'));
        return inner(node.body);
      case 'Try':
        this.line(depth, label, at('try {'));
        inner(node.block, null);
        this.line(depth, at(node.binding === null ? '} catch {' : `} catch (t${node.binding}) {`));
        return inner(node.handler);
      case 'Scope': case 'Pruned':
        this.line(depth, at(`{ // ${node.type === 'Scope' ? 'scope' : 'pruned scope'} ${node.scope}`));
        return inner(node.body);
      case 'Return': case 'Throw':
        return this.line(depth, at(node.type === 'Return' ? 'return ' : 'throw '), this.use(node.value, node.row), ';');
      case 'Break': case 'Continue': {
        if (node.kind === 'Implicit') return;
        const word = node.type === 'Break' ? 'break' : 'continue';
        return this.line(depth, ...node.kind === 'Labeled' ? [at(`${word} `),
          { label: node.target, row: node.row, text: `L${node.target}` }, ';'] : [at(`${word};`)]);
      }
      default: throw new Error(`${node.type} is no statement`);
    }
  }
}
