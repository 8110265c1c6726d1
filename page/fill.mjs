// node page/fill.mjs [FILE NAME]..: target/js/page.html with these files in it, a table, a source and answers, each with the name that it
// has. For a file that is not given FILE is `-`. `./run view` calls it.
import { closeSync, openSync, readFileSync, readSync, writeSync } from 'node:fs';
import { data } from './data.mjs';
import { Refusal } from '../target/js/package/core.js';
import reactive from '../target/js/package/inline.js';

const MOST = 32 * 1024 * 1024, words = process.argv.slice(2);
const files = ['table', 'source', 'answers'].map((_, k) => ({ path: words[2 * k], name: plain(words[2 * k + 1] ?? '') }));
const [table, source, answers] = files, isGiven = ({ path }) => path !== undefined && path !== '-';

/** A text without characters that move a terminal's cursor or turn a text's direction. */
function plain(text) { return text.replace(/[\p{Cc}\u200e\u200f\u202a-\u202e\u2066-\u2069]/gu, '·'); }
function stop(why) {
  console.error(`view: ${why}`);
  process.exit(2);
}

function read({ path, name }) {
  const parts = [];
  try {
    const file = openSync(path, 'r');
    for (let length = 0; ;) {
      const part = Buffer.alloc(1 << 20), count = readSync(file, part);
      if (count === 0) break;
      parts.push(part.subarray(0, count));
      if ((length += count) > MOST) stop(`${name}: longer than 32 MB`);
    }
    closeSync(file);
  } catch (error) { stop(`${name}: ${error.message.replace(/^\w+: /, '').replace(/, \w+( '.*')?$/s, '')}`); }
  return Buffer.concat(parts);
}
function text(file) {
  try { return new TextDecoder('utf-8', { fatal: true, ignoreBOM: true }).decode(read(file));
    } catch { return stop(`${file.name}: this is no UTF-8 text`); }
}
/** Writes all of it; nobody reads any more, as `head` does not: no more is said. */
function show(page) {
  const bytes = Buffer.from(page);
  try {
    for (let done = 0; done < bytes.length;) {
      try { done += writeSync(1, bytes, done); } catch (error) { if (error.code !== 'EAGAIN') throw error; }
    }
  } catch (error) {
    if (error.code === 'EPIPE') process.exit(2);
    stop(`standard output: ${error.message.replace(/^\w+: /, '').replace(/, \w+$/, '')}`);
  }
}

if (words.length > 6 || table.path?.startsWith('-')) stop('usage: ./run view [TABLE [SOURCE] [ANSWERS]] >page.html');
const given = {};
let refusal = null;
if (isGiven(table)) {
  const bytes = read(table);
  Object.assign(given, { name: table.name.replace(/^.*\//s, ''), table: new TextDecoder('utf-8', { ignoreBOM: true }).decode(bytes) });
  try { reactive.build(reactive.readTable(bytes)); } catch (error) {
    if (!(error instanceof Refusal)) throw error;
    refusal = error;
  }
}
if (isGiven(source)) given.source = text(source);
if (isGiven(answers)) { // alone, or behind the rows of a tree as `treerun` takes them
  const [, list] = text(answers).match(/^(?:op a b c d e\n(?:[\d ]+\n)*)?answer\n((?:\d+\n)*)$/)
    ?? stop(`${answers.name}: it has not the line 'answer', then one answer a line`);
  given.answers = list.split('\n').slice(0, -1).map(Number);
  if (given.answers.some(answer => answer > 4294967295)) stop(`${answers.name}: an answer is over 4,294,967,295`);
}
const page = readFileSync(new URL('../target/js/page.html', import.meta.url), 'utf8'),
  place = '<script type="application/json" id="given">';
show(page.replace(`${place}{}</script>`, () => `${place}${data(given)}</script>`));
if (refusal) console.error(`view: ${refusal.message}`);
process.exitCode = refusal ? 1 : 0;
