// node compare.mjs CORPUS NATIVE: the calls of native.c made of the module, on the same tables; every number and every lent buffer is
// compared. Then the friendly calls against the raw ones; how much of its stack the module used; and modules with a fault in them, which
// must be noticed.
import { spawnSync } from 'node:child_process';
import { readFileSync } from 'node:fs';
import { fileURLToPath } from 'node:url';
import { core, module } from './package.mjs';

const { Refusal, instantiate } = core;
const numbers = name => { const bytes = readFileSync(name);
  return new Uint32Array(bytes.buffer.slice(bytes.byteOffset, bytes.byteOffset + bytes.length)); };
const [input, expected] = process.argv.slice(2, 4).map(numbers);
const STACK = 262144, MOST_STACK = STACK * 3 / 4, FAULTS = 24, FAULT_TABLES = 600, FAULT_SECONDS = 60;

// The instance, to look at its memory.
let instance;
const { Instance } = WebAssembly;
WebAssembly.Instance = function (...args) { return instance = new Instance(...args); };

/** Every call on the tables, until `limit` of them: how many calls and numbers, and how many differ. */
function compared(reactive, limit, isFirstEnough) {
  const { raw } = reactive;
  let place = 0, differ = 0, calls = 0, at = 1, state = 88172645;
  const word = number => { if ((number >>> 0) !== expected[place++]) differ++; };
  const sum = items => {
    let h = 2166136261 | 0, g = 7;
    for (let i = 0; i < items.length; i++) { h = Math.imul(h ^ items[i], 16777619); g = Math.imul(g + items[i] | 0, 2654435761 | 0);
      g ^= g >>> 15; }
    word(items.length);
    word(h);
    word(g);
  };
  const below = limit => { state ^= state << 13; state ^= state >>> 17; state ^= state << 5; return (state >>> 0) % limit; };
  const sevens = count => new Uint32Array(count).fill(7), bytes = count => new Uint8Array(count).fill(7);
  const say = answer => { calls++; for (const number of Object.values(answer)) word(number); };
  const moreRows = [0, 13, -1, 0], moreLines = [0, 5, -1, -3, 0];

  function trees(words, turn) {
    for (const rule of ['', 'Language']) {
      const seen = raw[`preview${rule}`](words);
      say(seen);
      const tree = sevens(Math.max(0, 6 * seen.rows + moreRows[turn % 4])),
        index = sevens(Math.max(0, 3 * seen.lines + moreLines[turn % 5])), built = raw[`build${rule}`](words, tree, index);
      say(built);
      sum(tree);
      sum(index);
      const part = tree.subarray(0, built.code ? tree.length : 6 * built.rows);
      for (let k = 0; k <= built.lines; k++) say(raw.lookup(index, built.lines, k < built.lines ? index[3 * k] : below(40), part));
      for (let round = 0; round < 3; round++) {
        say(raw.checkTree(part));
        const answers = Uint32Array.from({ length: 40 }, () => below(3)), performed = sevens(round === 1 ? below(6) : 300);
        say(raw.runTree(part, answers, performed));
        sum(performed);
        if (part.length) part[below(part.length)] = below(2) ? below(26) : below(70000);
      }
    }
  }
  function tables(words, turn) {
    const count = words.length;
    say(raw.checkTable(words));
    say(raw.law(words));
    const drawing = bytes(turn % 3 ? 20000 : below(60));
    say(raw.draw(words, drawing));
    sum(drawing);
    const text = bytes(turn % 5 ? 11 * count + 256 : below(300)), written = raw.writeTable(words, text);
    say(written);
    sum(text);
    for (let round = 0; round < 2; round++) {
      const file = text.subarray(0, written.length), read = sevens(turn % 4 ? count + 3 : count - (count > 0));
      say(raw.readTable(file, read));
      sum(read);
      const old = bytes(32768), made = raw.newToOld(file, old);
      say(made);
      sum(old);
      const back = bytes(65542);
      say(raw.oldToNew(old.subarray(0, made.length), back));
      sum(back);
      if (file.length) file[below(file.length)] = '0 1\n9x'.charCodeAt(below(6));
    }
    const blocks = count > 1 && words[1] <= 1024 ? words[1] : 0, moved = sevens(count + (turn % 7 === 0)), olds = sevens(blocks);
    say(raw.rearrange(words, moved, olds));
    sum(moved);
    sum(olds);
    const first = sevens(count);
    say(raw.restore(moved.subarray(0, count), olds, first));
    sum(first);
  }
  for (let turn = 0; turn < limit && !(isFirstEnough && differ); turn++) {
    const count = input[at++], words = input.subarray(at, at + count);
    trees(words, turn);
    tables(words, turn);
    at += count;
  }
  return { calls, place, differ };
}

/** The friendly calls say what the raw ones say. */
function friendly(reactive, words) {
  const { raw } = reactive, sevens = count => new Uint32Array(count).fill(7), equal = (a, b) => a.length === b.length
    && a.every((word, k) => word === b[k]);
  let calls = 0, differ = 0;
  const check = (call, { code, at }, isGood) => {
    calls++;
    let good;
    try { const answer = call(); good = code === 0 && isGood(answer);
      } catch (error) { good = error instanceof Refusal && error.code === code && error.at === at; }
    if (!good) {
      differ++;
      console.log(`module: ${call} differs on a table of ${words.length} words`);
    }
  };
  for (const rule of ['', 'Language']) {
    const size = raw[`preview${rule}`](words), tree = sevens(6 * size.rows), index = sevens(3 * size.lines);
    raw[`build${rule}`](words, tree, index);
    check(() => reactive[`build${rule}`](words), size, built => built.visits === size.visits && equal(built.tree, tree)
      && equal(built.index, index));
    check(() => reactive[`preview${rule}`](words), size, seen => seen.rows === size.rows && seen.visits === size.visits
      && seen.lines === size.lines);
    if (size.code === 0 && size.rows <= 2048) check(() => reactive.checkTree(tree), { code: 0 }, () => true);
  }
  const table = raw.checkTable(words);
  check(() => reactive.checkTable(words), table, () => true);
  check(() => reactive.law(words), table, law => ['none', 'plain', 'switches', 'loops', 'values'].includes(law));
  check(() => reactive.draw(words), table, text => {
    const lent = new Uint8Array(text.length + 1);
    return raw.draw(words, lent).length === text.length && new TextDecoder().decode(lent) === `${text}\0`;
  });
  const text = new Uint8Array(256 + 11 * words.length), { length } = raw.writeTable(words, text);
  check(() => reactive.writeTable(words), table, written => written === new TextDecoder().decode(text.subarray(0, length)));
  if (table.code === 0) check(() => reactive.readTable(text.subarray(0, length)),
    raw.readTable(text.subarray(0, length), new Uint32Array(16384)), read => equal(read, words));
  check(() => reactive.restore(reactive.rearrange(words)), table, again => equal(again, words));
  return { calls, differ };
}

const fail = message => { console.log(`module: FAILED: ${message}`); process.exitCode = 1; };

/** The module against the native library, and how deep its stack was. */
function whole() {
  const reactive = instantiate(module());
  reactive.raw.checkTable([]);
  const painted = instance, stackWords = () => new Uint32Array(painted.exports.memory.buffer, 0, STACK / 4);
  stackWords().fill(0xa5a5a5a5);
  const { calls, place, differ } = compared(reactive, input[0]), told = { calls: 0, differ: 0 };
  for (let turn = 0, at = 1; turn < input[0]; turn++) {
    const count = input[at++], one = friendly(reactive, input.subarray(at, at + count));
    told.calls += one.calls;
    told.differ += one.differ;
    at += count;
  }
  console.log(`module: ${input[0]} tables, ${calls} calls, ${place} numbers and sums against the native library: ${differ} differ`);
  console.log(`module: ${told.calls} friendly calls against the raw ones: ${told.differ} differ`);
  if (differ || told.differ || place !== expected.length) fail(`${expected.length} numbers of the native library`);
  if (instance !== painted) fail('the module was made anew, and its stack is not measured');
  const stack = STACK - 4 * stackWords().findIndex(word => word !== 0xa5a5a5a5);
  console.log(`module: at most ${stack} bytes of its stack of ${STACK} were used`);
  if (stack > MOST_STACK || stack < 1024) fail(`a call may use ${MOST_STACK} bytes of the stack`);
}

/** Modules with a number of their code changed, an i32.const or i64.const of 1 to 62 that is one more. Some stand where no table leads. */
function faultPlaces() {
  const bytes = module(), places = [];
  for (let at = 0; at + 1 < bytes.length; at++) {
    if ((bytes[at] === 0x41 || bytes[at] === 0x42) && bytes[at + 1] >= 1 && bytes[at + 1] < 63) places.push(at + 1);
  }
  return Array.from({ length: FAULTS }, (_, k) => places[Math.floor((k + 0.5) * places.length / FAULTS)]).filter(at =>
    WebAssembly.validate(faulty(at)));
}
function faulty(at) {
  const bytes = Uint8Array.from(module());
  bytes[at]++;
  return bytes;
}
function faults() {
  const places = faultPlaces(), words = [fileURLToPath(import.meta.url), ...process.argv.slice(2, 4)];
  // each in a process of its own, since a fault may be a loop without end; that is noticed too
  const ended = places.map(at => spawnSync(process.execPath, [...words, String(at)],
    { timeout: 1000 * FAULT_SECONDS, killSignal: 'SIGKILL' }).status);
  const noticed = ended.filter(status => status !== 0).length;
  console.log(`module: ${places.length} modules with one number changed, ${noticed} noticed by the first ${FAULT_TABLES} tables`);
  if (places.length < FAULTS / 2 || noticed < places.length / 3) fail('too few faults are noticed');
}

if (process.argv[4]) process.exitCode = compared(instantiate(faulty(Number(process.argv[4]))), FAULT_TABLES, true).differ ? 1 : 0;
else {
  whole();
  faults();
}
