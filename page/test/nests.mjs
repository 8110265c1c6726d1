/** The text of a table of 991 blocks: eleven nests of 30 loops, each left from within by one break. */
export function nests() {
  const depth = 30, count = 11, size = 3 * depth, blocks = count * size + 1, lines = Array(blocks);
  for (let n = 0; n < count; n++) {
    const base = n * size, next = base + size;
    for (let d = 0; d < depth; d++) {
      const k = base + 2 * d, body = d < depth - 1 ? k + 2 : next - 1, after = d ? base + 2 * depth + d - 1 : next;
      lines[k] = `0 0 9 ${k + 1} ${body} ${after} 0 0 ${k} 0 0`;
      lines[k + 1] = `0 0 6 0 ${body} ${after} 0 0 ${k + 1} 0 0`;
      if (d) lines[base + 2 * depth + d - 1] = `0 0 4 ${base + 2 * d - 1} 1 0 0 0 ${base + 2 * depth + d - 1} 0 0`;
    }
    lines[next - 1] = `0 0 4 ${next} 0 0 0 0 ${next - 1} 0 0`;
  }
  lines[blocks - 1] = '0 0 3 0 0 0 0 0 9999 0 0';
  const names = ['entry blocks instructions cases places identifiers', 'first count code a b c d e id from to',
    'id lvalue code p q from to', 'test block'];
  return [names[0], `0 ${blocks} 0 0 1 1`, names[1], ...lines, names[2], names[3], 'identifier', '0', 'named', '1', ''].join('\n');
}
