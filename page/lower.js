// A small JavaScript to a table of blocks, as a compiler's lowering would: statements become blocks, expressions instructions. `&&`, `||`,
// `??`, `?:` and `?.` become blocks too, or stay within their instruction (`values: false`), so that the tree can be run. Not proved.
import { Offsets, Table } from '../target/js/package/tree.js';

const isFunction = (node) =>
  /^(FunctionDeclaration|FunctionExpression|ArrowFunctionExpression|ClassDeclaration|ClassExpression)$/.test(node.type);
/** The nodes within a node. */
const inner = node => Object.values(node).flat().filter(value => typeof value?.type === 'string');
const isValue = (node) => /^(LogicalExpression|ConditionalExpression|SequenceExpression|ChainExpression)$/.test(node.type);
/** The values within an expression that become blocks, the outermost ones, in source order. */
const valuesIn = node => isValue(node) ? [node] : isFunction(node) ? [] : inner(node).flatMap(valuesIn);

/** Why a source is not lowered. `pos` is a place in it, as in acorn's SyntaxError. */
export class NotLowered extends Error {
  constructor(message, node) {
    super(message);
    this.pos = node.start;
  }
}

/** The words of the table of a source. Throws a NotLowered, or what `parse` throws (acorn's SyntaxError). */
export function lower(source, { parse, values = true }) {
  const offsets = new Offsets(source), table = new Table();
  const range = (node) => node ? offsets.range([node.start, node.end], 'utf16', 'codePoint') : null;
  let program = parse(source, { ecmaVersion: 'latest', sourceType: 'module', allowReturnOutsideFunction: true,
    allowAwaitOutsideFunction: true }).body;
  if (program.length === 1) { // one function: its body
    const only = program[0].declaration ?? program[0];
    if (only.type === 'FunctionDeclaration') program = only.body.body;
  }
  const blocks = [];
  let ids = 0, current = null;
  const reserve = () => blocks.push({ instructions: [], end: null, used: false }) - 1;
  const start = (block) => { current = block; };
  const place = () => table.place(table.identifier(false));
  const end = (ending, node) => {
    if (current !== null) blocks[current].end = { id: ++ids, range: range(node), ...ending };
    current = null;
  };
  const goto = (block, variant, node) => {
    if (current === null) return;
    blocks[block].used = true;
    end({ type: 'Goto', block, variant }, node);
  };
  /** Adds an instruction and gives the place of its value. */
  const instruction = (node, rest) => {
    const lvalue = place();
    blocks[(current)].instructions.push({ id: ++ids, lvalue, range: range(node), ...rest });
    return lvalue;
  };
  const store = (to, value) => instruction(null, { type: 'StoreLocal', place: to, value });
  /** A block of a value: what it is and then to the fallthrough. */
  const branch = (block, result, fallthrough, value) => {
    start(block);
    store(result, value());
    goto(fallthrough, 'Break');
  };

  /** A block of a value is not only a Goto: what was worked out before it is loaded there. */
  const ready = value => {
    if (blocks[(current)].instructions.length === 0) instruction(null, { type: 'LoadLocal', place: value });
  };

  /** The place of an expression's value. */
  function expression(node) {
    if (values && node && isValue(node)) return value(node);
    if (values && node && !isFunction(node)) for (const part of valuesIn(node)) value(part);
    return instruction(node);
  }
  function value(node) {
    if (node.type === 'SequenceExpression') return node.expressions.map(expression).at(-1);
    if (node.type === 'ChainExpression') return chain(node.expression, null);
    const result = place(), [test, consequent, alternate, next] = [reserve(), reserve(), reserve(), reserve()];
    if (node.type === 'LogicalExpression') {
      end({ type: 'Logical', operator: node.operator, test, fallthrough: next }, node);
      start(test);
      const left = expression(node.left);
      end({ type: 'Branch', test: left, consequent, alternate });
      branch(consequent, result, next, () => left);
      branch(alternate, result, next, () => expression(node.right));
    } else {
      end({ type: 'Ternary', test, fallthrough: next }, node);
      start(test);
      end({ type: 'Branch', test: expression(node.test), consequent, alternate });
      branch(consequent, result, next, () => expression(node.consequent));
      branch(alternate, result, next, () => expression(node.alternate));
    }
    start(next);
    return result;
  }
  /** `a?.b.c(d)`: what stands behind a `?.` is worked out in the consequent; all that is left out at once shares the outermost
   * alternate. */
  function chain(node, shared) {
    const object = node.type === 'CallExpression' ? node.callee : node.object;
    if (!/^(CallExpression|MemberExpression)$/.test(node.type)) return expression(node);
    const within = (part) => /^(CallExpression|MemberExpression)$/.test(part.type) && (part.optional || within(part.callee ?? part.object));
    if (!within(node)) return expression(node);
    const result = place(), [test, consequent, next] = [reserve(), reserve(), reserve()], alternate = shared ?? reserve();
    end({ type: 'Optional', optional: node.optional, test, fallthrough: next }, node);
    if (shared === null) {
      start(alternate);
      store(result, instruction(null));
      goto(next, 'Break');
    }
    start(test);
    end({ type: 'Branch', test: chain(object, alternate), consequent, alternate });
    branch(consequent, result, next, () => {
      const parts = node.type === 'CallExpression' ? node.arguments : node.computed ? [node.property] : [];
      for (const part of parts.flatMap(valuesIn)) value(part);
      return instruction(node);
    });
    start(next);
    return result;
  }

  /** After a statement: its fallthrough, if anything leads there. */
  const after = block => {
    start(block);
    if (!blocks[block].used) end({ type: 'Unreachable' });
  };
  /** What a break or continue may name. */
  const targets = [];
  const target = (node, isBreak) => {
    const found = targets.findLast(({ labels, continueTo, isPlain }) => node.label ? labels.includes(node.label.name) : isBreak ? isPlain
      : continueTo !== undefined);
    if (!found) throw new NotLowered('nothing around it is its target', node);
    return found;
  };
  const within = (entry, body) => { targets.push(entry); body(); targets.pop(); };
  const list = statements => { for (const node of statements) if (current !== null) statement(node, []); };
  const nested = (block, node, next, variant) => {
    start(block);
    blocks[block].used = true;
    statement(node, []);
    goto(next, variant);
  };
  /** A block of a loop that ends in the answer whether the loop goes on. */
  const asks = (block, node, consequent, alternate) => {
    start(block);
    end({ type: 'Branch', test: expression(node), consequent, alternate }, node);
  };

  function statement(node, labels) {
    switch (node.type) {
      case 'EmptyStatement': return;
      case 'BlockStatement': return list(node.body);
      case 'ReturnStatement': return end({ type: 'Return', value: expression(node.argument) }, node);
      case 'ThrowStatement': return end({ type: 'Throw', value: expression(node.argument) }, node);
      case 'BreakStatement': return goto(target(node, true).breakTo, 'Break', node);
      case 'ContinueStatement': return goto(target(node, false).continueTo, 'Continue', node);
      case 'IfStatement': {
        const test = expression(node.test), consequent = reserve(), own = node.alternate ? reserve() : null, fallthrough = reserve(),
          alternate = own ?? fallthrough;
        if (own === null) blocks[fallthrough].used = true;
        end({ type: 'If', test, consequent, alternate, fallthrough }, node);
        nested(consequent, node.consequent, fallthrough, 'Break');
        if (own !== null) nested(own, node.alternate, fallthrough, 'Break');
        return after(fallthrough);
      }
      case 'WhileStatement': case 'DoWhileStatement': {
        const [test, loop, fallthrough] = [reserve(), reserve(), reserve()], isWhile = node.type === 'WhileStatement';
        blocks[fallthrough].used = true;
        end({ type: isWhile ? 'While' : 'DoWhile', test, loop, fallthrough }, node);
        if (isWhile) asks(test, node.test, loop, fallthrough);
        within({ labels, breakTo: fallthrough, continueTo: test, isPlain: true }, () => nested(loop, node.body, test, 'Continue'));
        if (!isWhile) asks(test, node.test, loop, fallthrough);
        return start(fallthrough);
      }
      case 'ForStatement': {
        const [init, test, update, loop, fallthrough] = [reserve(), reserve(), node.update ? reserve() : null, reserve(), reserve()],
          again = update ?? test;
        if (!node.test) throw new NotLowered('a for without a test is not lowered', node);
        end({ type: 'For', init, test, update, loop, fallthrough }, node);
        start(init);
        ready(expression(node.init));
        goto(test, 'Break');
        asks(test, node.test, loop, fallthrough);
        if (update !== null) {
          start(update);
          ready(expression(node.update));
          goto(test, 'Break');
        }
        within({ labels, breakTo: fallthrough, continueTo: again, isPlain: true }, () => nested(loop, node.body, again, 'Continue'));
        return start(fallthrough);
      }
      case 'ForOfStatement': case 'ForInStatement': {
        const isOf = node.type === 'ForOfStatement', [init, test, loop, fallthrough] = [reserve(), isOf ? reserve() : null, reserve(),
          reserve()];
        end(test === null ? { type: 'ForIn', init, loop, fallthrough } : { type: 'ForOf', init, test, loop, fallthrough }, node);
        start(init);
        const list = expression(node.right);
        if (test !== null) {
          ready(list);
          goto(test, 'Break');
          start(test);
          end({ type: 'Branch', test: instruction(node.left), consequent: loop, alternate: fallthrough }, node.left);
        } else end({ type: 'Branch', test: list, consequent: loop, alternate: fallthrough }, node.left);
        within({ labels, breakTo: fallthrough, continueTo: init, isPlain: true }, () => nested(loop, node.body, init, 'Continue'));
        return start(fallthrough);
      }
      case 'SwitchStatement': {
        const test = expression(node.discriminant), tests = node.cases.map(({ test }) => test ? expression(test) : null);
        const own = (node.cases.map(reserve)), fallthrough = reserve();
        if (!tests.includes(null)) blocks[fallthrough].used = true;
        end({ type: 'Switch', test, firstCase: table.cases.length, caseCount: own.length, fallthrough }, node);
        own.forEach((block, k) => table.cases.push({ test: tests[k], block }));
        within({ labels, breakTo: fallthrough, isPlain: true }, () => own.forEach((block, k) => {
          start(block);
          list(node.cases[k].consequent);
          goto(own[k + 1] ?? fallthrough, 'Break');
        }));
        return after(fallthrough);
      }
      case 'LabeledStatement': {
        const names = [...labels, node.label.name];
        if (/^(For|While|DoWhile|Switch|Labeled)/.test(node.body.type)) return statement(node.body, names);
        const [block, fallthrough] = [reserve(), reserve()];
        end({ type: 'Label', block, fallthrough }, node);
        within({ labels: names, breakTo: fallthrough }, () => nested(block, node.body, fallthrough, 'Break'));
        return after(fallthrough);
      }
      case 'TryStatement': {
        if (node.finalizer || !node.handler) throw new NotLowered('finally is not lowered', node);
        const [block, handler, fallthrough] = [reserve(), reserve(), reserve()];
        end({ type: 'Try', block, handler, fallthrough, binding: node.handler.param ? place() : null }, node);
        nested(block, node.block, fallthrough, 'Try');
        nested(handler, node.handler.body, fallthrough, 'Break');
        return after(fallthrough);
      }
      case 'WithStatement': throw new NotLowered('with is not lowered', node);
      case 'ExpressionStatement': return void expression(node.expression);
      default: return void expression(node); // declarations
    }
  }

  start(reserve());
  list(program);
  if (current !== null) end({ type: 'Return', value: instruction(null) });
  for (const { instructions, end } of blocks) table.block(end, instructions);
  if (table.places.length === 0) place();
  return table.words();
}
