// What the package gives and refuses, by hand.
import assert from 'node:assert/strict';
import { execFileSync } from 'node:child_process';
import { readFileSync } from 'node:fs';
import test from 'node:test';
import vm from 'node:vm';
import { core, examples, module, random, reactive, top, tree, vectors } from './package.mjs';

const { CODES, Refusal, load, instantiate, Reactive } = core;
const { Table, Offsets, readTree, walk, children, visitorKeys, isLoop, labels, blocksOf, rangesOf, ENDINGS } = tree;
const RETURN = [0, 1, 0, 0, 1, 1, 0, 0, 3, 0, 0, 0, 0, 0, 7, 0, 0, 0, 1];
const refused = (call, code, at) => assert.throws(call, error => error instanceof Refusal && error.code === code && error.at === at);

test('the stored vectors: the answers of the Rust', () => {
  const list = vectors();
  assert.equal(list.length, 2455);
  for (const { words, lent, code, at, rows, visits, tree } of list) {
    const buffer = new Uint32Array(lent).fill(7), built = reactive.raw.build(words, buffer, new Uint32Array(3069));
    assert.deepEqual([built.code, built.at, built.rows, built.visits], [code, at, rows, visits]);
    assert.ok(buffer.every((word, k) => word === (tree[k] ?? 0)));
  }
});

test('refusals have the sentences, places and advice of docs/FORMAT.md', () => {
  const lines = readFileSync(`${top}docs/FORMAT.md`, 'utf8').split('\n').filter(line => /^\| \d+ \| [^|]+ \| [^|]+\. \|/.test(line));
  assert.equal(lines.length, Object.keys(CODES).length);
  for (const line of lines) {
    const [code, counts, sentence, advice] = line.slice(2, -2).split(' | ').map(cell => cell.replaceAll('`', '')),
      refusal = new Refusal(+code, 3);
    assert.equal(refusal.sentence, sentence);
    assert.equal(refusal.unit, counts === '0' ? null : counts.split(/[ :]/)[0]);
    assert.equal(refusal.message, counts === '0' ? `${code}: ${sentence}` : `${code} at ${refusal.unit} 3: ${sentence}`);
    if (!/^As for/.test(advice)) assert.equal(refusal.advice, advice);
    assert.ok(refusal.advice && !/^As for/.test(refusal.advice));
    assert.match(refusal.constant, /^[A-Z_]+$/);
  }
  assert.equal(new Refusal(15, 1).constant, 'CONTINUE_SCHEDULED');
  assert.equal(new Refusal(99, 1).sentence, 'No code of this library.');
});

test('the examples: read, written, built, drawn, rearranged, run', () => {
  for (const { name, text } of examples()) {
    const words = reactive.readTable(text);
    assert.equal(reactive.writeTable(words), text);
    assert.deepEqual(reactive.readTable(new TextEncoder().encode(text)), words);
    const printed = readFileSync(`${top}examples/${name.replace('.txt', '.out')}`, 'utf8').split('\n'), built = reactive.build(words);
    assert.equal(printed[1], `0 0 ${built.rows} ${built.visits}`);
    assert.equal(printed.slice(3, -1).join(' '), built.tree.join(' '));
    assert.deepEqual(reactive.restore(reactive.rearrange(words)), words);
    reactive.checkTree(built.tree);
    for (const { label, first, closing } of labels(built.index))
      assert.deepEqual(reactive.lookup(built, label), { first, closing, rows: built.tree.subarray(6 * first, 6 * closing + 6) });
    refused(() => reactive.lookup(built, 999), 42, 0);
  }
  assert.equal(reactive.draw(reactive.readTable(readFileSync(`${top}examples/search.txt`, 'utf8'))),
    readFileSync(`${top}examples/search.dot`, 'utf8'));
  const search = readFileSync(`${top}examples/search.ran`, 'utf8').split('\n');
  const ran = reactive.runTree(reactive.build(reactive.readTable(readFileSync(`${top}examples/search.txt`, 'utf8'))).tree,
    [true, 0, 1, 1, 1, 1, false]);
  assert.deepEqual([...ran.performed].map(String), search.slice(3, -1));
  assert.equal(ran.reason, ['', 'return', 'throw', 'end', 'no answer'][search[1].split(' ')[3]]);
});

test('texts of the old form go there and back', () => {
  const text = reactive.writeTable(RETURN), old = reactive.newToOld(text);
  assert.match(old, /^first count code a b c d e id span$/m);
  assert.equal(reactive.oldToNew(old), text);
  refused(() => reactive.oldToNew(text), 50, text.indexOf('from'));
});

test('the largest drawing is lent just what it needs', () => {
  const cases = 1024, blocks = Array.from({ length: 1024 },
    (_, k) => ({ type: 'Switch', test: 0, firstCase: 0, caseCount: cases, fallthrough: k }));
  const table = Object.assign(new Table(), { cases: Array.from({ length: cases }, () => ({ test: null, block: 1023 })), places: [0],
    identifiers: [false] });
  table.blocks = blocks.map(block => ({ ...block, first: 0, count: 0, id: 0, range: null }));
  const words = table.words(), text = reactive.draw(words);
  assert.equal(text.split('\n').length, 1024 * 1025 + 3);
  assert.equal(reactive.raw.draw(words, new Uint8Array(text.length)).length, text.length);
  assert.equal(reactive.raw.draw(words, new Uint8Array(text.length - 1)).code, 44);
});

test('words and text of any other sort are told', () => {
  const wrong = (call, message) => assert.throws(call, error => error instanceof TypeError && message.test(error.message));
  wrong(() => reactive.build(), /^words: a Uint32Array or an array of numbers, not undefined$/);
  wrong(() => reactive.build(null), /not null$/);
  wrong(() => reactive.build('0 1'), /not a string$/);
  wrong(() => reactive.build({ length: 3 }), /not an Object$/);
  wrong(() => reactive.build(new Map()), /not a Map$/);
  for (const sort of [Int8Array, Uint8Array, Uint8ClampedArray, Int16Array, Uint16Array, Int32Array, Float32Array, Float64Array,
    BigInt64Array, BigUint64Array]) {
    wrong(() => reactive.build(new sort(19)), new RegExp(`not an? ${sort.name}$`));
    wrong(() => reactive.raw.build(RETURN, new sort(12), new Uint32Array(0)), /^tree is a Uint32Array/);
    if (sort !== Uint8Array) wrong(() => reactive.readTable(new sort(19)), /^text: a string or a Uint8Array/);
  }
  wrong(() => reactive.build(new DataView(new ArrayBuffer(8))), /not a DataView$/);
  wrong(() => reactive.build(new ArrayBuffer(8)), /not an ArrayBuffer$/);
  for (const [word, said] of [[-1, '-1'], [4294967296, '4294967296'], [0.5, '0.5'], [NaN, 'NaN'], ['1', 'a string'], [1n, 'a bigint'],
    [undefined, 'undefined']]) {
    wrong(() => reactive.build([0, word]), new RegExp(`^words\\[1\\] is an integer from 0 to 4,294,967,295, not ${said}$`));
  }
  wrong(() => reactive.build([0, , 1]), /^words\[1\]/);
  wrong(() => reactive.raw.build(RETURN, [], new Uint32Array(3)), /^tree is a Uint32Array, not an Array$/);
  wrong(() => reactive.raw.lookup([], -1, 0, []), /^lines is an integer/);
  wrong(() => reactive.lookup(undefined, 0), /^tree: a Uint32Array/);
  wrong(() => reactive.runTree([], 7), /^answers: a list of numbers, true and false, not a number$/);
  wrong(() => reactive.runTree([], '10'), /not a string$/);
  wrong(() => reactive.runTree([], ['yes']), /^answers\[0\]/);
  wrong(() => reactive.readTable(5), /^text: a string or a Uint8Array, not a number$/);
  wrong(() => reactive.restore(), /^words/);
});

test('arrays that lost their buffer, are shared or overlap are told', () => {
  const wrong = (call, message) => assert.throws(call, error => error instanceof TypeError && message.test(error.message));
  const lost = Uint32Array.from(RETURN);
  structuredClone(lost.buffer, { transfer: [lost.buffer] });
  wrong(() => reactive.build(lost), /^words has lost its buffer/);
  wrong(() => reactive.raw.build(RETURN, lost, new Uint32Array(3)), /^tree has lost its buffer/);
  if ('resize' in ArrayBuffer.prototype) {
    const buffer = new ArrayBuffer(76, { maxByteLength: 76 }), shrunk = new Uint32Array(buffer, 8, 10);
    buffer.resize(8);
    wrong(() => reactive.build(shrunk), /^words has lost its buffer/);
  }
  const shared = new Uint32Array(new SharedArrayBuffer(76));
  wrong(() => reactive.build(shared), /^words lies in memory that another thread may change.*words\.slice\(\)$/);
  wrong(() => reactive.raw.preview(new Uint32Array(new WebAssembly.Memory({ initial: 1, maximum: 1, shared: true }).buffer)),
    /another thread/);
  const both = new Uint32Array(40);
  wrong(() => reactive.raw.build(RETURN, both.subarray(0, 12), both.subarray(11)), /^tree and index overlap/);
  wrong(() => reactive.raw.build(both.subarray(0, 19), both.subarray(18), new Uint32Array(0)), /overlap/);
  wrong(() => reactive.raw.readTable(new Uint8Array(both.buffer, 4, 8), both), /overlap/);
  both.set(RETURN);
  assert.equal(reactive.raw.build(both.subarray(0, 19), both.subarray(19, 31), both.subarray(31)).rows, 2);
  assert.equal(reactive.raw.build(both.subarray(0, 19), both.subarray(20, 32), both.subarray(20, 20)).rows, 2);
});

test('arrays of another window, and of subclasses, are arrays', () => {
  const other = vm.runInNewContext(`({ words: Uint32Array.from([${RETURN}]), list: [${RETURN}], text: new Uint8Array(200) })`);
  assert.equal(reactive.build(other.words).rows, 2);
  assert.equal(reactive.build(other.list).rows, 2);
  assert.ok(reactive.raw.writeTable(other.words, other.text).length > 0);
  assert.equal(other.text[0], 'e'.charCodeAt(0));
  class Odd extends Uint32Array { get length() { return 3; } get byteLength() { return 5; } get [Symbol.toStringTag]() { return 'Odd'; } }
  assert.equal(reactive.build(Odd.from(RETURN)).rows, 2);
});

test('arrays that do not fit are a RangeError, and the next call is as before', () => {
  const large = new Uint8Array(2 ** 31);
  assert.throws(() => reactive.raw.oldToNew(large, new Uint8Array(2 ** 31)), error => error instanceof RangeError
    && /^oldToNew: a call with 4,294,967,\d+ bytes/.test(error.message));
  refused(() => reactive.readTable(large.subarray(0, 2 ** 26)), 51, 0);
  assert.equal(reactive.build(RETURN).rows, 2);
});

test('any words and any bytes end in an answer or a refusal, and in nothing else', () => {
  const below = random(77), words = () => Uint32Array.from({ length: below(60) }, () => below(5) ? below(30) : below(4294967296));
  const calls = Object.keys(reactive.raw).filter(name => !/lookup|runTree|restore|readTable|old|new/i.test(name));
  for (let k = 0; k < 5000; k++) {
    const given = words(), bytes = Uint8Array.from({ length: below(300) }, () => below(256));
    for (const call of [...calls.map(name => () => reactive[name](given)), () => reactive.lookup({ tree: given, index: words() },
      below(9)), () => reactive.runTree(given, words()),
      () => reactive.restore({ words: given, oldNumbers: words() }), () => reactive.readTable(bytes), () => reactive.oldToNew(bytes),
        () => reactive.newToOld(bytes),
      () => Table.of(given), () => readTree(given)]) {
      try { call(); } catch (error) { if (!(error instanceof Refusal)) throw error; }
    }
  }
});

test('load takes an address, a response, bytes and a module', async () => {
  const words = JSON.stringify(reactive.build(RETURN)), gives = async source =>
    assert.equal(JSON.stringify((await load(source)).build(RETURN)), words);
  const bytes = module();
  await gives();
  await gives(bytes);
  await gives(bytes.buffer.slice(bytes.byteOffset, bytes.byteOffset + bytes.length));
  await gives(new WebAssembly.Module(bytes));
  await gives(new Response(bytes));
  await gives(Promise.resolve(new Response(bytes, { headers: { 'content-type': 'text/plain' } })));
  await gives(`data:application/wasm;base64,${bytes.toString('base64')}`);
  assert.equal(instantiate(bytes).build(RETURN).rows, 2);
  await assert.rejects(load(new URL('file:///no/such/reactive.wasm')), /cannot be loaded: ENOENT/);
  await assert.rejects(load('data:,hello'), /^Error: the module is not compiled/);
  await assert.rejects(load(new Response('', { status: 404 })), /cannot be loaded: status 404/);
  await assert.rejects(load(new Uint8Array(8)), /^Error: the module is not compiled/);
  for (const source of [null, 7, {}, []]) await assert.rejects(load(source), /^TypeError: load: /);
  assert.throws(() => instantiate(new Uint8Array(3)), /^Error: the module is not compiled/);
  assert.throws(() => new Reactive(new WebAssembly.Module(Uint8Array.of(0, 97, 115, 109, 1, 0, 0, 0))).build(RETURN),
    /not the module of this package: it does not export memory/);
});

test('the declarations have the names of the modules', async () => {
  const folder = `${top}target/js/package/`, declared = name => [...readFileSync(`${folder}${name}.d.ts`, 'utf8')
    .matchAll(/^export (?:declare )?(?:class|const|function) (\w+)/gm)].map(([, name]) => name);
  for (const [name, names] of [['index', [...declared('core'), 'load']], ['node', [...declared('core'), 'load']],
    ['inline', [...declared('core'), 'default']],
    ['tree', declared('tree')]]) assert.deepEqual(Object.keys(await import(`${folder}${name}.js`)).sort(), names.sort());
  const methods = Object.getOwnPropertyNames(Reactive.prototype).filter(name => name !== 'constructor').sort();
  const types = readFileSync(`${folder}core.d.ts`, 'utf8'),
    part = name => types.slice(types.indexOf(name), types.indexOf('\n}', types.indexOf(name)));
  const members = text => [...text.matchAll(/^  (\w+)\(/gm)].map(([, name]) => name).filter(name => name !== 'constructor').sort();
  assert.deepEqual(members(part('export class Reactive')), methods);
  assert.deepEqual(members(part('export interface Raw')), Object.keys(reactive.raw).sort());
});

test('an engine without WebAssembly is told at the first call', () => {
  const script = `delete globalThis.WebAssembly;
    const { default: reactive } = await import('./target/js/package/inline.js'), { load } = await import('./target/js/package/node.js');
    const said = []; try { reactive.build([]); } catch (error) { said.push(error.message); }
    await load().catch(error => said.push(error.message));
    console.log(said.join('|'));`;
  const said = 'reactive-build needs WebAssembly and BigInt, and this engine does not have them';
  assert.equal(execFileSync(process.execPath, ['--input-type=module', '-e', script], { cwd: top, encoding: 'utf8' }), `${said}|${said}\n`);
});

test('a table goes to words and back', () => {
  for (const { words } of vectors()) {
    let table;
    try { table = Table.of(words); } catch (error) { assert.ok(error instanceof Refusal && reactive.raw.checkTable(words).code > 0);
      continue; }
    const again = table.words();
    assert.deepEqual([...again], words);
    if (reactive.raw.checkTable(words).code) continue;
    const drawn = [...reactive.draw(words).matchAll(/n(\d+) -> n(\d+)/g)].map(([, from, to]) => `${from} ${to}`);
    assert.deepEqual(table.blocks.flatMap((_, from) => table.targets(from).map(({ block }) => `${from} ${block}`)), drawn);
  }
});

test('a table is written with names', () => {
  const table = new Table(), value = table.place();
  assert.equal(table.block({ type: 'Switch', test: value, cases: [{ test: value, block: 1 }, { test: null, block: 2 }], fallthrough: 3,
    id: 1, range: [0, 9] }, [{ id: 5, lvalue: value, range: [2, 3] }]), 0);
  for (const variant of ['Break', 'Break']) table.block({ type: 'Goto', block: 3, variant });
  table.block({ type: 'Return', value });
  table.block({ type: 'Missing' });
  assert.equal(reactive.writeTable(table.words()), `entry blocks instructions cases places identifiers
0 5 1 2 1 1
first count code a b c d e id from to
0 1 7 0 0 2 3 0 1 0 9
1 0 4 3 0 0 0 0 0 0 0
1 0 4 3 0 0 0 0 0 0 0
1 0 3 0 0 0 0 0 0 0 0
0 0 0 0 0 0 0 0 0 0 0
id lvalue code p q from to
5 0 0 0 0 2 3
test block
0 1
65535 2
identifier
0
named
1
`);
  const wrong = (change, message) =>
    assert.throws(() => { const table = new Table(); change(table); table.words(); }, error => error instanceof TypeError
      && message.test(error.message));
  wrong(table => table.block({ type: 'Jump' }), /^block 0: type is one of Missing, Unreachable, .*, not Jump$/);
  wrong(table => table.block({ type: 'While', test: 1, loop: 2 }), /^block 0, While: fallthrough is an integer .*, not undefined$/);
  wrong(table => table.block({ type: 'Goto', block: 1, variant: 'Jump' }),
    /^block 0, Goto: variant is one of Break, Continue, Try, not Jump$/);
  wrong(table => table.block({ type: 'Return', value: 0, range: 7 }), /^block 0: range is a pair of numbers or null$/);
  wrong(table => table.block({ type: 'Unreachable' }, [{ lvalue: 'x' }]), /^instruction 0: lvalue/);
});

test('endings and nodes have the names of docs/FORMAT.md', () => {
  const table = names => {
    const lines = readFileSync(`${top}docs/FORMAT.md`, 'utf8').split('\n'), begin = lines.findIndex(line => line.startsWith(names));
    const rows = lines.slice(begin + 2, lines.indexOf('', begin)).map(line => line.slice(2, -2).split(/ \| | \|$/));
    return rows.flatMap(([numbers, types]) => numbers.split(', ').map((number, k) => [Number(number), types.split(', ')[k]]));
  };
  assert.deepEqual(ENDINGS.map(({ code, type }) => [code, type === 'Missing' ? 'no such block' : type]), table('| Code | Ends in |'));
  assert.deepEqual(Object.keys(visitorKeys).map((type, k) => [k + 1, type.toUpperCase()]), table('| Op | Node |'));
});

test('rows become nodes exactly where the proved check allows it', () => {
  const below = random(31);
  let read = 0, not = 0;
  for (const { code, tree } of vectors()) {
    if (code) continue;
    const rows = tree.slice(), root = readTree(rows).root;
    let next = 0;
    walk(root, { leave(node) { if (node.type !== 'Case' && node.type !== 'Switch') next++;
      assert.deepEqual(children(node).every(part => part.row < node.row && part.first >= node.first), true); } });
    for (let k = 0; k < 8; k++) {
      rows.splice(0, rows.length, ...tree);
      if (tree.length) rows[below(rows.length)] = below(3) ? below(26) : below(3000);
      const checked = reactive.raw.checkTree(rows);
      try { readTree(rows); read++; } catch (error) {
        assert.ok(error instanceof Refusal && [60, 61, 62].includes(error.code));
        assert.notEqual(checked.code, 0);
        not++;
        continue;
      }
      if (rows.length <= 6 * 2048) assert.ok(checked.code === 0 || checked.code === 60, `${checked.code}`);
    }
  }
  assert.ok(read > 500 && not > 500, `${read} read, ${not} not`);
});

test('a tree has its loops, labels, blocks and ranges', () => {
  const words = reactive.readTable(readFileSync(`${top}examples/search.txt`, 'utf8')), table = Table.of(words),
    built = reactive.build(words), whole = readTree(built.tree, table);
  const source = readFileSync(`${top}examples/search.js`, 'utf8'), ranges = rangesOf(whole, table), blocks = blocksOf(whole, table);
  const text = ([from, to]) => source.slice(from, to);
  const loop = whole.rows.find(isLoop);
  assert.equal(loop.label, labels(built.index).find(({ closing }) => closing === loop.row).label);
  assert.ok(text(ranges[loop.row]).startsWith('while'));
  assert.deepEqual(table.blocks[blocks[loop.row][0]].type, loop.type);
  const seen = [];
  walk(whole.root, { enter(node, parent, key) { seen.push([node.type, parent?.type ?? null, key]); return node.type !== 'If'; } });
  assert.ok(seen.some(([type, parent, key]) => type === 'If' && key === 'body' && parent === 'Block'));
  assert.ok(!seen.some(([, parent]) => parent === 'If'));
});

test('places are converted between units', () => {
  const source = 'a\u00e9\u20ac\u{1f600}\ud800z', offsets = new Offsets(source);
  assert.deepEqual(offsets.length, { codePoint: 6, utf16: 7, utf8: new TextEncoder().encode(source).length });
  const points = [...source];
  for (let point = 0; point <= points.length; point++) {
    const before = points.slice(0, point).join('');
    assert.equal(offsets.convert(point, 'codePoint', 'utf16'), before.length);
    assert.equal(offsets.convert(point, 'codePoint', 'utf8'), new TextEncoder().encode(before).length);
    for (const unit of ['utf16', 'utf8'])
      assert.equal(offsets.convert(offsets.convert(point, 'codePoint', unit), unit, 'codePoint'), point);
  }
  assert.equal(offsets.convert(4, 'utf16', 'codePoint'), 3); // within the smiley
  assert.equal(offsets.convert(8, 'utf16', 'utf8'), null);
  assert.equal(offsets.convert(-1, 'utf16', 'utf8'), null);
  assert.equal(offsets.convert(0.5, 'utf16', 'utf8'), null);
  assert.deepEqual(offsets.range([1, 4], 'codePoint', 'utf16'), [1, 5]);
  assert.equal(offsets.range([1, 9], 'codePoint', 'utf16'), null);
  assert.throws(() => offsets.convert(0, 'bytes', 'utf16'), TypeError);
  assert.throws(() => new Offsets(7), TypeError);
});
