// A layered drawing of a graph. Boxes stand in ranks; an edge that leads down passes each rank between in a point of its own.
export const WIDTH = 176, GAP = 18, RANK_GAP = 40;
const MOST_POINTS = 20000, LANE = 10;

/** Where each box and the points of each edge stand; null where that is too much to draw.
 * `boxes` is a map of numbers to heights, `edges` a list of {from, to}. */
export function layout(boxes, entry, edges) {
  const out = new Map([...boxes.keys()].map(box => [box, []]));
  edges.forEach((edge, k) => { if (out.has(edge.from) && out.has(edge.to)) out.get(edge.from).push(k); });
  const { order, back } = depthFirst(out, entry, edges);
  const rank = ranks(order, out, edges, back);
  const { points, ways, at } = thread(order, rank, boxes, edges, out, back);
  if (points.length > MOST_POINTS) return null;
  const layers = [];
  points.forEach((point, k) => (layers[point.rank] ??= []).push(k));
  arrange(layers, points);
  if (points.length === 0) return { width: 0, height: 0, boxes: [], edges: [] };
  const x = settle(layers, points), y = stack(layers, points);
  const left = points.reduce((least, point, k) => Math.min(least, x[k] - point.width / 2), Infinity);
  const right = points.reduce((most, point, k) => Math.max(most, x[k] + point.width / 2), -Infinity);
  return {
    width: right - left, height: y.height,
    boxes: order.map(box => ({ box, x: x[at.get(box)] - left, y: y.tops[rank.get(box)], height: boxes.get(box) })),
    edges: edges.flatMap((edge, k) => ways[k]
      ? [{ ...edge, back: back.has(k), points: ways[k].map(p => [x[p] - left, points[p].box === undefined ? y.middles[points[p].rank]
        : y.tops[points[p].rank], points[p].height]) }]
      : []),
  };
}

/** The boxes in the order of a walk from the entry, and the edges that lead back on it. */
function depthFirst(out, entry, edges) {
  const state = new Map(), finished = [], back = new Set();
  for (const start of [entry, ...out.keys()]) {
    if (!out.has(start) || state.has(start)) continue;
    const open = [[start, 0]];
    state.set(start, 'open');
    while (open.length) {
      const top = open[open.length - 1], [box, next] = top, list = out.get(box);
      if (next === list.length) {
        state.set(box, 'done');
        finished.push(box);
        open.pop();
        continue;
      }
      top[1]++;
      const { to } = edges[list[next]];
      if (state.get(to) === 'open') back.add(list[next]);
      else if (!state.has(to)) {
        state.set(to, 'open');
        open.push([to, 0]);
      }
    }
  }
  return { order: finished.reverse(), back };
}

/** Each box below all that lead to it. */
function ranks(order, out, edges, back) {
  const rank = new Map(order.map(box => [box, 0]));
  for (const box of order) for (const k of out.get(box)) if (!back.has(k)) rank.set(edges[k].to,
    Math.max(rank.get(edges[k].to), rank.get(box) + 1));
  return rank;
}

/** The points: the boxes, then one in each rank that an edge passes. `ways` has the points of each edge. */
function thread(order, rank, boxes, edges, out, back) {
  const points = order.map(box => ({ box, rank: rank.get(box), up: [], down: [], width: WIDTH, height: boxes.get(box) }));
  const at = new Map(order.map((box, k) => [box, k])), ways = edges.map(() => null);
  for (const list of out.values()) for (const k of list) {
    const { from, to } = edges[k], isBack = back.has(k), [top, bottom] = (isBack ? [to, from] : [from, to]).map(box => at.get(box)),
      way = [top];
    if (points.length > MOST_POINTS) return { points, ways, at };
    for (let r = points[top].rank + 1; r < points[bottom].rank;
      r++) way.push(points.push({ rank: r, up: [], down: [], width: LANE, height: 0 }) - 1);
    if (top !== bottom) way.push(bottom);
    for (let s = 0; s + 1 < way.length; s++) {
      points[way[s]].down.push(way[s + 1]);
      points[way[s + 1]].up.push(way[s]);
    }
    ways[k] = isBack ? way.reverse() : way;
  }
  return { points, ways, at };
}

/** The order within each rank: sweeps down and up by the mean place of the neighbours. */
function arrange(layers, points) {
  const place = new Float64Array(points.length);
  const number = layer => layer.forEach((k, n) => { place[k] = n / Math.max(1, layer.length - 1) + n * 1e-6; });
  layers.forEach(number);
  for (let sweep = 0; sweep < 16; sweep++) {
    const [list, side] = sweep % 2 ? [layers.slice().reverse(), 'down'] : [layers, 'up'];
    for (const layer of list) {
      if (layer.length < 2) continue;
      const key = new Map(layer.map(k => {
        const near = points[k][side];
        return [k, near.length ? near.reduce((sum, n) => sum + place[n], 0) / near.length : place[k]];
      }));
      layer.sort((a, b) => key.get(a) - key.get(b));
      number(layer);
    }
  }
}

/** How far right each point stands: as near to its neighbours as order and gaps allow (isotonic regression in each rank). */
function settle(layers, points) {
  const x = new Float64Array(points.length), gap = (a, b) => (points[a].width + points[b].width) / 2 + GAP;
  const place = (layer, wanted) => {
    let offset = 0;
    const runs = [];
    layer.forEach((k, n) => {
      if (n) offset += gap(layer[n - 1], k);
      runs.push({ sum: wanted(k) - offset, count: 1, from: n });
      while (runs.length > 1 && runs.at(-2).sum / runs.at(-2).count > runs.at(-1).sum / runs.at(-1).count) {
        const last = runs.pop();
        runs.at(-1).sum += last.sum;
        runs.at(-1).count += last.count;
      }
    });
    let r = 0;
    offset = 0;
    layer.forEach((k, n) => {
      if (n) offset += gap(layer[n - 1], k);
      while (r + 1 < runs.length && runs[r + 1].from <= n) r++;
      x[k] = runs[r].sum / runs[r].count + offset;
    });
  };
  layers.forEach(layer => place(layer, () => 0));
  for (let sweep = 0; sweep < 40; sweep++) {
    for (const layer of sweep % 2 ? layers.slice().reverse() : layers) place(layer, k => {
      const { up, down, box } = points[k], near = sweep < 12 ? (sweep % 2 ? down : up) : up.concat(down);
      let sum = 0, weight = 0;
      for (const n of near) { // a long edge is kept straight before all else
        const lanes = (box === undefined) + (points[n].box === undefined), heavy = [2, 1, 8][lanes];
        sum += heavy * x[n];
        weight += heavy;
      }
      return weight ? sum / weight : x[k];
    });
  }
  return x;
}

/** How far down each rank stands. */
function stack(layers, points) {
  const tops = [], middles = [];
  let y = 0;
  for (const layer of layers) {
    const height = layer.reduce((most, k) => Math.max(most, points[k].height), 0);
    tops.push(y);
    middles.push(y + height / 2);
    y += height + RANK_GAP;
  }
  return { tops, middles, height: Math.max(0, y - RANK_GAP) };
}

/** The path of an edge, its tip, and where its name stands. It leaves a box at the lower side, or at the upper one if it leads back. */
export function path({ points, back }) {
  if (points.length === 1) { // from a box to itself
    const [x, y, height] = points[0], side = x + WIDTH / 2, middle = y + height / 2;
    return { d: `M${side} ${middle - 6}c20 -8 20 20 1 12`, tip: [side, middle + 5], from: [side + 8, middle + 8],
      name: [side + 18, middle - 8], box: [x, y, side + 24, y + height] };
  }
  const last = points.length - 1, s = back ? -1 : 1, side = (k, isUpper) => points[k][1] + (isUpper ? 0 : points[k][2]);
  const list = points.map(([x, y]) => [x, y]), limit = n => Math.max(-WIDTH / 3, Math.min(WIDTH / 3, n));
  list[0] = [list[0][0] + limit((list[1][0] - list[0][0]) / 3), side(0, back)];
  list[last] = [list[last][0] + limit((list[last - 1][0] - list[last][0]) / 3), side(last, !back) - s * 6];
  let d = `M${list[0].map(n => n.toFixed(1)).join(' ')}`;
  for (let k = 1; k < list.length; k++) {
    const [x0, y0] = list[k - 1], [x1, y1] = list[k], m = (y1 - y0) * 0.5;
    d += `C${x0.toFixed(1)} ${(y0 + m).toFixed(1)} ${x1.toFixed(1)} ${(y1 - m).toFixed(1)} ${x1.toFixed(1)} ${y1.toFixed(1)}`;
  }
  const xs = list.map(([x]) => x), ys = list.map(([, y]) => y), [x0, y0] = list[0], [x1, y1] = list[1];
  return {
    d, tip: [list[last][0], list[last][1] + s * 6], from: [list[last][0], list[last][1]],
    name: [x0 + (x1 - x0) * 0.1, y0 + s * Math.min(15, Math.abs(y1 - y0) / 2)],
      box: [Math.min(...xs), Math.min(...ys) - 8, Math.max(...xs), Math.max(...ys) + 8],
  };
}
