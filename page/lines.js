// A list of lines of one height, of which those are made that are seen.
import { el } from './dom.js';

export const LINE = 1.6;
const MARGIN = 30, FEW = 300;

export class Lines {
  /** `view` scrolls. `line(k)` makes the li of line k; `over(from, to)` makes what lies over these lines, or null. */
  constructor(view, line, over = () => null) {
    Object.assign(this, { view, line, over, count: 0, from: 0, to: 0 });
    this.list = el('ol', { role: 'presentation' });
    this.sheet = el('div', { class: 'sheet', role: 'presentation' }, this.list);
    view.append(this.sheet);
    // Kept, since to ask for them lays out the whole page: how far it is scrolled, how much of it is seen, and the height of a line.
    Object.assign(this, { top: 0, seen: 800, height: 13 * LINE });
    view.addEventListener('scroll', () => { this.top = view.scrollTop; this.draw(); });
    new ResizeObserver(() => {
      this.seen = view.clientHeight || 800;
      this.height = (parseFloat(getComputedStyle(this.sheet).fontSize) || 13) * LINE;
      this.draw();
    }).observe(view);
  }

  set(count) {
    this.count = count;
    this.sheet.style.height = `${count * LINE}em`;
    this.draw(true);
  }

  /** What is seen; all of it for the printer, and where there are few. */
  draw(isNew = false, isWhole = false) {
    const { count, height, top, seen } = this;
    let from = Math.max(0, Math.floor(top / height) - MARGIN), to = Math.min(count, Math.ceil((top + seen) / height) + MARGIN);
    if (isWhole || count <= FEW) [from, to] = [0, count];
    if (!isNew && from >= this.from && to <= this.to && !(from === to)) {
      const spare = MARGIN / 2; // what was drawn still has a margin around what is seen
      if ((this.from === 0 || top / height - this.from > spare) && (this.to === count || this.to - (top + seen) / height > spare)) return;
    }
    if (!isNew && from === this.from && to === this.to) return;
    Object.assign(this, { from, to });
    this.list.replaceChildren(...Array.from({ length: to - from }, (_, k) => this.line(from + k)));
    this.list.style.transform = `translateY(${from * LINE}em)`;
    const over = this.over(from, to);
    this.overlay?.remove();
    this.overlay = over;
    if (over) this.sheet.append(over);
  }

  /** Brings a line into view. */
  show(k) {
    const { view, height } = this, top = k * height, bottom = view.scrollTop + view.clientHeight;
    if (top >= view.scrollTop + height && top + 2 * height <= bottom) return;
    view.scrollTop = Math.max(0, top - view.clientHeight / 2);
    this.top = view.scrollTop;
    this.draw();
  }
}
