// The blocks as a graph, of which those boxes and lines are made that are seen.
import { WIDTH, layout, path } from './layout.js';
import { el, title } from './dom.js';

const HEAD = 24, TEXT = 14, MOST_TEXTS = 4, MARGIN = 300, LETTERS = 27;
const FLOW = {
  Goto: ['block'], If: ['consequent', 'alternate'], Branch: ['consequent', 'alternate'], Switch: ['case', 'default'], DoWhile: ['loop'],
    While: ['test'], For: ['init'],
  ForOf: ['init'], ForIn: ['init'], Logical: ['test'], Ternary: ['test'], Optional: ['test'], Label: ['block'], Sequence: ['block'],
    Scope: ['block'],
  PrunedScope: ['block'], MaybeThrow: ['continuation'], Try: ['block', 'handler'],
};
const NAMES = { consequent: 'yes', alternate: 'no', handler: 'throws', default: 'default' };

export class Graph {
  scale = 1;
  constructor(view, classes) {
    Object.assign(this, { view, classes });
    // Kept, since to ask for them lays out the whole page: how far it is scrolled, and how much is seen.
    Object.assign(this, { left: 0, top: 0, width: view.clientWidth, height: view.clientHeight });
    view.addEventListener('scroll', () => {
      Object.assign(this, { left: view.scrollLeft, top: view.scrollTop });
      this.draw();
    });
    new ResizeObserver(() => {
      const isOther = view.clientWidth !== this.width;
      Object.assign(this, { width: view.clientWidth, height: view.clientHeight });
      if (this.isFit && isOther) this.fit(); else this.draw();
    }).observe(view);
  }

  /** `textsOf(block)` gives the texts of its instructions, `caseText(place)` that of a case. */
  set(table, textsOf, caseText) {
    const present = table.blocks.map((block, number) => ({ block, number })).filter(({ block }) => block.type !== 'Missing');
    const texts = new Map(present.map(({ number }) => [number, textsOf(number)]));
    const shown = list => list.length > MOST_TEXTS ? [...list.slice(0, MOST_TEXTS - 1), `… ${list.length - MOST_TEXTS + 1} more`] : list;
    const edges = present.flatMap(({ block, number }) => {
      let at = 0;
      return table.targets(number).map(({ role, block: to, test }) => {
        const place = role === 'case' || role === 'default' ? at++ : null, isLast = role === 'fallthrough' && block.type === 'Switch'
          && !table.targets(number).some(({ role }) => role === 'default');
        const name = role === 'case' ? caseText(test, place) : isLast ? 'no case' : NAMES[role] ?? '';
        return { from: number, to, role, place, name, isFlow: isLast || (FLOW[block.type] ?? []).includes(role) };
      });
    });
    const heights = new Map(present.map(({ number }) => [number, HEAD + TEXT * shown(texts.get(number)).length + (texts.get(number).length
      ? 5 : 0)]));
    const key = JSON.stringify([[...heights], edges.map(({ from, to }) => [from, to]), table.entry]);
    if (key !== this.key) {
      this.drawn = layout(heights, table.entry, edges);
      for (const edge of this.drawn?.edges ?? []) edge.path = path(edge);
    } else if (this.drawn) { // the same places, other names
      const all = new Map();
      for (const edge of edges) { const id = `${edge.from} ${edge.to}`; all.set(id, [...all.get(id) ?? [], edge]); }
      for (const edge of this.drawn.edges) Object.assign(edge, all.get(`${edge.from} ${edge.to}`).shift());
    }
    Object.assign(this, { key, table, texts: new Map([...texts].map(([number, list]) => [number, shown(list)])) });
    if (!this.drawn) {
      this.svg = null;
      this.view.replaceChildren(el('p', { class: 'empty' }, `${present.length} blocks with ${edges.length} lines are too many to draw.`));
      return;
    }
    this.paths = el('g');
    this.boxes = el('g');
    this.svg = el('svg', { class: 'drawing', role: 'presentation' }, this.paths, this.boxes);
    this.view.replaceChildren(this.svg);
    this.fit();
  }

  fit() {
    if (!this.drawn) return;
    this.isFit = true;
    this.zoom(Math.max(0.55, Math.min(1, (this.width - 28) / (this.drawn.width + 52) || 1)));
  }
  zoom(scale) {
    this.scale = Math.max(0.2, Math.min(3, scale));
    const { width, height } = this.drawn, [w, h] = [width + 52, height + 8];
    for (const [name, value] of Object.entries({ viewBox: `-26 -4 ${w.toFixed(0)} ${h.toFixed(0)}`, width: (w * this.scale).toFixed(0),
      height: (h * this.scale).toFixed(0) })) {
      this.svg?.setAttribute(name, value);
    }
    this.draw(true);
  }

  /** The part that is seen, in the drawing's own lengths. The drawing stands in the middle, under a margin. */
  seen() {
    const { scale } = this, left = (this.left - Math.max(0, (this.width - (this.drawn.width + 52) * scale) / 2)) / scale - 26,
      top = (this.top - 14) / scale - 4;
    return [left - MARGIN, top - MARGIN, left + this.width / scale + MARGIN, top + this.height / scale + MARGIN];
  }
  draw(isNew = false, isWhole = false) {
    if (!this.svg) return;
    const [left, top, right, bottom] = isWhole ? [-Infinity, -Infinity, Infinity, Infinity] : this.seen(), spare = MARGIN / 2;
    if (!isNew && this.part && left + spare > this.part[0] && top + spare > this.part[1] && right - spare < this.part[2]
      && bottom - spare < this.part[3]) return;
    this.part = [left, top, right, bottom];
    const touches = (x0, y0, x1, y1) => x1 >= left && x0 <= right && y1 >= top && y0 <= bottom;
    this.boxes.replaceChildren(...this.drawn.boxes.filter(({ x, y, height }) => touches(x - WIDTH / 2, y, x + WIDTH / 2,
      y + height)).map(box => this.box(box)));
    this.paths.replaceChildren(...this.drawn.edges.filter(({ path }) => touches(...path.box)).sort((a, b) =>
      a.isFlow - b.isFlow).map(edge => this.edge(edge)));
    this.paint();
  }

  box({ box, x, y, height }) {
    const row = this.table.blocks[box], left = x - WIDTH / 2;
    const cut = text => text.length > LETTERS ? `${text.slice(0, LETTERS - 1)}…` : text;
    const extra = row.type === 'Goto' && row.variant !== 'Break' ? ` ${row.variant}` : row.type === 'Logical' ? ` ${row.operator}` : '';
    const instructions = `${row.count} ${row.count === 1 ? 'instruction' : 'instructions'}`;
    return el('g', { 'class': 'block', 'data-b': box },
      title(`block ${box}: ${row.type}${extra}, ${instructions}${box === this.table.entry ? ', the entry' : ''}`),
      el('rect', { x: left.toFixed(1), y: y.toFixed(1), width: WIDTH, height, rx: 5 }),
      el('text', { class: 'n', x: (left + 9).toFixed(1), y: (y + 16).toFixed(1) }, String(box)),
      el('text', { x: (left + 16 + 7 * String(box).length).toFixed(1), y: (y + 16).toFixed(1) }, row.type + extra),
      this.texts.get(box).map((text, k) => el('text', { class: 'i', x: (left + 9).toFixed(1), y: (y + HEAD + 8 + TEXT * k).toFixed(1) },
        cut(text))));
  }
  edge(edge) {
    const { d, tip: [x, y], from: [px, py], name: [nx, ny] } = edge.path, l = Math.hypot(x - px, y - py) || 1, ux = (x - px) / l,
      uy = (y - py) / l;
    const point = (a, b) => `${(x - 7 * ux + a * uy).toFixed(1)} ${(y - 7 * uy + b * ux).toFixed(1)}`;
    return el('g', { 'class': `edge${edge.isFlow ? '' : ' names'}`, 'data-edge': edgeKey(edge) },
      title(`${edge.from} to ${edge.to}: ${edge.role}`),
      el('path', { d }), el('path', { class: 'tip', d: `M${x.toFixed(1)} ${y.toFixed(1)}L${point(-3.2, 3.2)}L${point(3.2, -3.2)}z` }),
      edge.name && edge.isFlow ? el('text', { x: nx.toFixed(1), y: (ny + 3).toFixed(1) }, edge.name) : null);
  }

  /** The classes of what is drawn: `classes.block(number)`, `classes.edge(key)`. */
  paint() {
    if (!this.svg) return;
    for (const g of this.boxes.children) g.setAttribute('class',
      `block ${+g.dataset.b === this.table.entry ? 'entry ' : ''}${this.classes.block(+g.dataset.b)}`);
    for (const g of this.paths.children) g.classList.toggle('taken', this.classes.taken(g.dataset.edge));
  }
  /** Brings a block into view. */
  show(block) {
    const box = this.drawn?.boxes.find(each => each.box === block), { view, scale } = this;
    if (!box || !this.svg) return;
    const own = this.svg.getBoundingClientRect(), outer = view.getBoundingClientRect();
    const x = own.left - outer.left + (box.x + 26) * scale, y = own.top - outer.top + (box.y + 4) * scale,
      [w, h] = [WIDTH * scale / 2, box.height * scale];
    if (y < 0 || y + h > view.clientHeight) view.scrollTop += y + h / 2 - view.clientHeight / 2;
    if (x - w < 0 || x + w > view.clientWidth) view.scrollLeft += x - view.clientWidth / 2;
    Object.assign(this, { left: view.scrollLeft, top: view.scrollTop });
    this.draw();
  }
}

export const edgeKey = ({ from, to, role, place }) => `${from} ${to} ${role === 'default' ? 'case' : role} ${place ?? ''}`;
