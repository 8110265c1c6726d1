// Places in a source text. A table's spans count code points (docs/FORMAT.md), JavaScript's strings UTF-16 units, compilers in Rust UTF-8
// bytes.

export class Offsets {
  /** Of each code point, and of the end: where it begins. */
  #begins;
  length;

  constructor(source) {
    if (typeof source !== 'string') throw new TypeError('the source of Offsets is a string');
    const utf16 = [0], utf8 = [0];
    let units = 0, bytes = 0;
    for (const c of source) {
      const code = c.codePointAt(0);
      utf16.push(units += c.length);
      utf8.push(bytes += code < 0x80 ? 1 : code < 0x800 ? 2 : code < 0x10000 ? 3 : 4);
    }
    this.#begins = { utf16: Uint32Array.from(utf16), utf8: Uint32Array.from(utf8) };
    this.length = Object.freeze({ codePoint: utf16.length - 1, utf16: units, utf8: bytes });
  }

  convert(offset, from, to) {
    for (const unit of [from, to]) if (!(unit in this.length))
      throw new TypeError(`a unit of Offsets is 'codePoint', 'utf16' or 'utf8', not ${String(unit)}`);
    if (!Number.isInteger(offset) || offset < 0 || offset > this.length[from]) return null;
    let point = offset;
    if (from !== 'codePoint') { // the last code point that begins at the offset or before it
      const begins = this.#begins[from];
      let low = 0, high = begins.length - 1;
      while (low < high) {
        const middle = low + high + 1 >> 1;
        if (begins[middle] <= offset) low = middle; else high = middle - 1;
      }
      point = low;
    }
    return to === 'codePoint' ? point : this.#begins[to][point];
  }

  range([begin, end], from, to) {
    const first = this.convert(begin, from, to), last = this.convert(end, from, to);
    return first === null || last === null || first > last ? null : [first, last];
  }
}
