// What `tsc --strict` takes of the declarations. A line below `@ts-expect-error` must be refused.
import inline, { Refusal, type Built, type Law, type Reactive, type Unit } from 'reactive-build/inline';
import { CODES, LIMITS, MOST_LINES, NONE, ROW_WORDS, instantiate, load } from 'reactive-build';
import { ENDINGS, KINDS, OPERATORS, Offsets, Table, VARIANTS, blocksOf, children, isLoop, labels, rangesOf, readTree, visitorKeys, walk,
  type Node, type Tree } from 'reactive-build/tree';

export async function all(words: readonly number[], response: Response): Promise<string[]> {
  const loaded: Reactive[] = [inline, await load(), await load(new URL('https://example.org/reactive.wasm')),
    await load(fetch('/reactive.wasm')), await load(response)];
  loaded.push(await load(new ArrayBuffer(8)), instantiate(new Uint8Array(8)), instantiate(new WebAssembly.Module(new Uint8Array(8))));
  const table = new Table(), place: number = table.place(table.identifier(true));
  table.entry = table.block({ type: 'Switch', test: place, cases: [{ test: place, block: 1 }, { test: null, block: 1 }], fallthrough: 1,
    range: [0, 4] }, [{ lvalue: place }]);
  table.block({ type: 'Return', value: place });
  const built: Built = inline.buildLanguage(table.words()), law: Law = inline.law(words);
  const tree: Tree = readTree(built.tree, Table.of(built.tree)), told: string[] = [law];
  walk(tree.root, { enter(node, parent, key) { told.push(describe(node), parent?.type ?? '', key ?? '');
    return node.type !== 'Switch'; } });
  told.push(...labels(built.index).map(({ label }) => `${inline.lookup(built, label).closing}`));
  const places = new Offsets('text').range([0, 1], 'codePoint', 'utf8');
  told.push(`${places?.[0]} ${inline.runTree(built.tree, [true, 2]).reason} ${inline.restore(inline.rearrange(words)).length}`);
  told.push(`${blocksOf(tree, table).length} ${rangesOf(tree, table)[0]?.[1]} ${children(tree.root).length} ${visitorKeys.While.join()}`);
  told.push(`${inline.raw.build(words, new Uint32Array(6), new Uint32Array(3)).code} ${table.targets(0)[0]?.role}`);
  told.push(`${CODES[15]?.sentence} ${ROW_WORDS + MOST_LINES + NONE + LIMITS[0]}`);
  told.push(inline.readTable(new Uint8Array(4)).join(), inline.readTable('text').join(), ENDINGS[3]?.type ?? '', KINDS[0], OPERATORS[2],
    VARIANTS[1]);
  return told;
}

function describe(node: Node): string {
  switch (node.type) {
    case 'If': return node.alternate === null ? 'if' : `else of ${node.alternate.body.length}`;
    case 'While': case 'DoWhile': return `${node.test.type} ${node.label}`;
    case 'Break': return node.kind === 'Labeled' ? `break ${node.target}` : 'break';
    case 'Instr': return node.value.type;
    default: return isLoop(node) ? node.body.type : node.type;
  }
}

export function message(error: unknown): string {
  if (!(error instanceof Refusal)) return '';
  const unit: Unit | null = error.unit;
  return `${unit} ${error.at}: ${error.sentence} ${error.advice} ${error.constant}`;
}

export function wrong(table: Table, node: Node): void {
  // @ts-expect-error words are 32 bits wide
  inline.build(new Float64Array(3));
  // @ts-expect-error a string is no table
  inline.build('0 1');
  // @ts-expect-error a While has a fallthrough
  table.block({ type: 'While', test: 1, loop: 2 });
  // @ts-expect-error there is no such variant
  table.block({ type: 'Goto', block: 1, variant: 'Jump' });
  // @ts-expect-error not every node has a test
  node.test;
  // @ts-expect-error there is no such rule
  inline.buildByMagic([]);
}
