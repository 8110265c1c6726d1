// A text area under which parts of its text are marked: the lines with marks are copied there, those that are seen.
import { el, one } from './dom.js';

const LINE = 1.6, MARGIN = 40, LETTER = 13, MOST_LINE = 2000;

export class Editor {
  onInput = () => {};
  onPlace = () => {};
  #ranges = [];
  #starts = null;
  /** Kept, since to ask for it lays out the whole page: how far it is scrolled, how high it and its lines are. */
  #seen = { top: 0, left: 0, height: 800, line: LETTER * LINE };
  /** The lines that are copied now. */
  #drawn = [0, 0];

  constructor(element) {
    this.area = one('textarea', element);
    this.copy = one('pre', element);
    this.rows = el('div');
    this.copy.append(this.rows);
    this.area.addEventListener('input', () => {
      this.#starts = null;
      this.onInput();
    });
    this.area.addEventListener('click', () => this.onPlace(this.area.selectionStart));
    this.area.addEventListener('scroll', () => this.#scrolled());
    new ResizeObserver(() => {
      this.#seen.height = this.area.clientHeight;
      this.#seen.line = (parseFloat(getComputedStyle(this.area).fontSize) || LETTER) * LINE;
      this.#draw();
    }).observe(this.area);
  }

  get text() { return this.area.value; }
  set text(text) {
    if (this.area.value === text) return;
    this.area.value = text;
    this.#starts = null;
  }

  /** Where each line begins. */
  get starts() {
    if (this.#starts) return this.#starts;
    const { text } = this, starts = [0];
    for (let at = text.indexOf('\n'); at >= 0; at = text.indexOf('\n', at + 1)) starts.push(at + 1);
    return this.#starts = starts;
  }

  /** Ranges {from, to, name} in UTF-16 units; where they overlap, a part has all their names. */
  mark(ranges) {
    this.#ranges = ranges;
    this.#draw();
  }

  #scrolled() {
    Object.assign(this.#seen, { top: this.area.scrollTop, left: this.area.scrollLeft });
    const { top, left, height, line } = this.#seen, [from, to] = this.#drawn, spare = MARGIN / 2;
    this.rows.style.transform = `translate(${-left}px, ${-top}px)`;
    if (this.#ranges.length && (top / line < from + spare && from > 0 || (top + height) / line > to - spare)) this.#draw();
  }

  #draw() {
    const { text, starts } = this, { top, height, line } = this.#seen;
    const [first, last] = this.#drawn = [Math.max(0, Math.floor(top / line) - MARGIN),
      Math.min(starts.length, Math.ceil((top + height) / line) + MARGIN)];
    const rows = [];
    for (let k = first; this.#ranges.length && k < last; k++) {
      const from = starts[k], to = starts[k + 1] === undefined ? text.length : starts[k + 1] - 1, isEnd = k === starts.length - 1;
      const marks = this.#ranges.filter(range => range.from <= to && (range.to > from || range.from === range.to && range.from >= from
        || isEnd && range.to > to));
      if (marks.length) rows.push(this.#row(k, from, Math.min(to, from + MOST_LINE), marks));
    }
    this.rows.replaceChildren(...rows);
  }
  #row(k, from, to, marks) {
    const { text } = this, inside = at => Math.max(from, Math.min(to, at));
    const cuts = [...new Set([from, to, ...marks.flatMap(range => [inside(range.from), inside(range.to)])])].sort((a, b) => a - b);
    const pieces = cuts.slice(0, -1).map((start, n) => {
      const end = cuts[n + 1], names = marks.filter(range => range.from <= start && end <= range.to).map(({ name }) => name),
        piece = text.slice(start, end);
      return names.length ? el('span', { class: [...new Set(names)].join(' ') }, piece) : piece;
    });
    const beyond = marks.find(range => range.from <= to && range.to > to && range.from >= from); // an end of the line, or of the text
    const row = el('div', {}, pieces, beyond && (beyond.from === to || to === text.length) ? el('span', { class: beyond.name }, ' ')
      : null);
    row.style.top = `${k * LINE}em`;
    return row;
  }

  /** Brings the first part with a name into view, unless the reader is typing here. */
  show(name) {
    const range = this.#ranges.find(each => each.name === name), { area } = this;
    if (!range || document.activeElement === area) return;
    const { line, height } = this.#seen, row = this.starts.findLastIndex(start => start <= range.from), y = row * line;
    if (y < area.scrollTop || y + 2 * line > area.scrollTop + height) area.scrollTop = Math.max(0, y - height / 2);
    const part = one(`.${name}`, this.rows), x = part?.offsetLeft ?? 0;
    if (x < area.scrollLeft || x > area.scrollLeft + area.clientWidth - 40) area.scrollLeft = Math.max(0, x - area.clientWidth / 2);
    this.#scrolled();
  }
}

/** Line and column of a place, from 1. */
export function lineAt(text, at) {
  const before = text.slice(0, at), line = before.split('\n').length;
  return { line, column: at - before.lastIndexOf('\n') };
}
/** Where a line is, the first being 0. */
export function lineOf(text, number) {
  let from = 0;
  for (; number > 0; number--) {
    const next = text.indexOf('\n', from);
    if (next < 0) break;
    from = next + 1;
  }
  const end = text.indexOf('\n', from);
  return { from, to: end < 0 ? text.length : end };
}
/** Where each number of a table stands in its text. */
export function numberPlaces(text) {
  const places = [];
  for (const { index, 0: digits } of text.matchAll(/\d+/g)) places.push({ from: index, to: index + digits.length });
  return places;
}
