/** Where something begins and ends in the source, the second place not included; in code points, as the table has it. */
export type Range = readonly [from: number, to: number];

// ---- Tables: docs/FORMAT.md, "Input". Blocks, instructions, cases, places and identifiers are rows, named by their number.

/** What a block ends in. */
export type Ending =
  | { type: 'Missing' }
  | { type: 'Unreachable' }
  | { type: 'Throw'; value: number }
  | { type: 'Return'; value: number }
  | { type: 'Goto'; block: number; variant: Variant }
  | { type: 'If'; test: number; consequent: number; alternate: number; fallthrough: number }
  | { type: 'Branch'; test: number; consequent: number; alternate: number }
  | { type: 'Switch'; test: number; firstCase: number; caseCount: number; fallthrough: number }
  | { type: 'DoWhile'; loop: number; test: number; fallthrough: number }
  | { type: 'While'; test: number; loop: number; fallthrough: number }
  | { type: 'For'; init: number; test: number; update: number | null; loop: number; fallthrough: number }
  | { type: 'ForOf'; init: number; test: number; loop: number; fallthrough: number }
  | { type: 'ForIn'; init: number; loop: number; fallthrough: number }
  | { type: 'Logical'; operator: Operator; test: number; fallthrough: number }
  | { type: 'Ternary'; test: number; fallthrough: number }
  | { type: 'Optional'; optional: boolean; test: number; fallthrough: number }
  | { type: 'Label'; block: number; fallthrough: number }
  | { type: 'Sequence'; block: number; fallthrough: number }
  | { type: 'MaybeThrow'; continuation: number }
  | { type: 'Try'; block: number; handler: number; fallthrough: number; binding: number | null }
  | { type: 'Scope'; block: number; fallthrough: number; scope: number }
  | { type: 'PrunedScope'; block: number; fallthrough: number; scope: number };
export type Variant = 'Break' | 'Continue' | 'Try';
export type Operator = '||' | '&&' | '??';
/** A Switch with its cases, for `Table.block`, which adds them to the table. */
export interface NewSwitch { type: 'Switch'; test: number; cases: readonly Case[]; fallthrough: number }
export type Block = Ending & { first: number; count: number; id: number; range: Range | null };
export type Instruction = ({ type: 'Other' } | { type: 'LoadLocal'; place: number } | { type: 'StoreLocal'; place: number;
  value: number }) & { id: number; lvalue: number; range: Range | null };
export type NewInstruction = ({ type?: 'Other' } | { type: 'LoadLocal'; place: number } | { type: 'StoreLocal'; place: number;
  value: number }) & { id?: number; lvalue: number; range?: Range | null };
/** No test is the default. */
export interface Case { test: number | null; block: number }

/** A table of blocks. Rows are added and changed freely; the build looks at everything when it gets the words. */
export class Table {
  entry: number;
  blocks: Block[];
  instructions: Instruction[];
  cases: Case[];
  /** The identifier of each place. */
  places: number[];
  /** Of each identifier whether it has a name. */
  identifiers: boolean[];
  /** Adds an identifier and gives its row. */
  identifier(named?: boolean): number;
  /** Adds a place and gives its row; without an argument its identifier too. */
  place(identifier?: number): number;
  /** Adds a block with its instructions and gives its row. A block may name rows that are added later. */
  block(block: (Ending | NewSwitch) & { id?: number; range?: Range | null }, instructions?: readonly NewInstruction[]): number;
  /** The words that the build takes. A TypeError tells a column that is no number; whether the words are a table the build says. A range
   * of 0 and 0 becomes none. */
  words(): Uint32Array;
  /** The table of words, of any content and number. Throws a Refusal 1 or 4 where they have no names: a wrong number of words, an
   * unknown code, variant, operator or flag, a word in a column that is not used. */
  static of(words: ArrayLike<number>): Table;
  /** The blocks that a block names, in the order of the drawing's lines; `test` is the place of a case. */
  targets(block: number): { role: string; block: number; test?: number | null }[];
}
export const ENDINGS: readonly { readonly type: Ending['type']; readonly code: number;
  readonly columns: readonly { readonly name: string; readonly isBlock: boolean; readonly mayBeNone: boolean }[] }[];
export const VARIANTS: readonly ['Break', 'Continue', 'Try'];
export const OPERATORS: readonly ['||', '&&', '??'];

// ---- Trees: docs/FORMAT.md, "Output".

interface Row {
  /** The node's own row, which closes it. */
  readonly row: number;
  /** The first row of its parts. */
  readonly first: number;
  /** Of an INSTR, UNDEF, FOROF and FORIN what the row has; with the table also of a PLAIN. */
  readonly range: Range | null;
}
interface Labelled { readonly id: number; readonly label: number | null }
export type PlainNode = Row & { readonly type: 'Plain'; readonly instruction: number };
export type LoadNode = Row & { readonly type: 'Load'; readonly place: number };
export type UndefNode = Row & { readonly type: 'Undef' };
export type SeqNode = Row & { readonly type: 'Seq'; readonly id: number; readonly instructions: readonly InstrNode[];
  readonly value: ValueNode };
export type LogicalNode = Row & { readonly type: 'Logical'; readonly operator: Operator; readonly left: ValueNode;
  readonly right: ValueNode };
export type CondNode = Row & { readonly type: 'Cond'; readonly test: ValueNode; readonly consequent: ValueNode;
  readonly alternate: ValueNode };
export type OptionalNode = Row & { readonly type: 'Optional'; readonly optional: boolean; readonly value: ValueNode };
export type ValueNode = PlainNode | LoadNode | UndefNode | SeqNode | LogicalNode | CondNode | OptionalNode;
export type InstrNode = Row & { readonly type: 'Instr'; readonly id: number; readonly lvalue: number; readonly value: ValueNode };
export type BlockNode = Row & { readonly type: 'Block'; readonly body: readonly StatementNode[] };
export type IfNode = Row & Labelled & { readonly type: 'If'; readonly test: number; readonly consequent: BlockNode;
  readonly alternate: BlockNode | null };
export type CaseNode = Row & { readonly type: 'Case'; readonly test: number | null; readonly body: BlockNode };
/** The cases are in source order. */
export type SwitchNode = Row & Labelled & { readonly type: 'Switch'; readonly test: number; readonly cases: readonly CaseNode[] };
export type DoWhileNode = Row & Labelled & { readonly type: 'DoWhile'; readonly body: BlockNode; readonly test: ValueNode };
export type WhileNode = Row & Labelled & { readonly type: 'While'; readonly test: ValueNode; readonly body: BlockNode };
export type ForNode = Row & Labelled & { readonly type: 'For'; readonly init: ValueNode; readonly test: ValueNode;
  readonly update: ValueNode | null; readonly body: BlockNode };
export type ForOfNode = Row & Labelled & { readonly type: 'ForOf'; readonly init: ValueNode; readonly test: ValueNode;
  readonly body: BlockNode };
export type ForInNode = Row & Labelled & { readonly type: 'ForIn'; readonly init: ValueNode; readonly body: BlockNode };
export type LoopNode = DoWhileNode | WhileNode | ForNode | ForOfNode | ForInNode;
export type LabelNode = Row & Labelled & { readonly type: 'Label'; readonly body: BlockNode };
export type TryNode = Row & Labelled & { readonly type: 'Try'; readonly block: BlockNode; readonly handler: BlockNode;
  readonly binding: number | null };
export type ScopeNode = Row & { readonly type: 'Scope' | 'Pruned'; readonly scope: number; readonly body: BlockNode };
export type ExitNode = Row & { readonly type: 'Return' | 'Throw'; readonly value: number; readonly id: number };
export type Kind = 'Implicit' | 'Labeled' | 'Unlabeled';
export type JumpNode = Row & {
  readonly type: 'Break' | 'Continue';
  /** The label of the statement that the jump leaves or goes on with. */
  readonly target: number;
  readonly id: number;
  /** Implicit is not printed: control goes there anyway. Labeled needs its label. */
  readonly kind: Kind;
  /** How many loops the jump leaves before its target. */
  readonly loopsLeft: number;
};
export type StatementNode = InstrNode | IfNode | SwitchNode | LoopNode | LabelNode | TryNode | ScopeNode | ExitNode | JumpNode;
export type Node = ValueNode | StatementNode | BlockNode | CaseNode;
export interface Tree {
  readonly root: BlockNode;
  /** The node that each row closes. */
  readonly rows: readonly Node[];
}

/** The tree of rows, of any content and number. Throws a Refusal 60, 61 or 62 where they have no nodes: an unknown op, kind, operator or
 * flag, parts that are missing or of another sort, something else at the end than one BLOCK. The proved `checkTree` also tests ranges. */
export function readTree(words: ArrayLike<number>, table?: Table): Tree;
/** The names of a node's parts, in the order of its rows, cases in source order. */
export const visitorKeys: { readonly [type in Node['type']]: readonly string[] };
export function children(node: Node): Node[];
/** From the node down, parts in order. Where `enter` gives `false`, the node's parts are passed over, and it is not left. */
export function walk(node: Node, visitor: { enter?(node: Node, parent: Node | null, key: string | null): boolean | void;
  leave?(node: Node, parent: Node | null, key: string | null): void }): void;
export function isLoop(node: Node): node is LoopNode;
/** The lines of a build's index. */
export function labels(index: ArrayLike<number>): { label: number; first: number; closing: number }[];
/** For each row the blocks that made it: those with its instruction, or with its id and its sort. A table that uses an id twice may give
 * two. */
export function blocksOf(tree: Tree, table: Table): readonly (readonly number[])[];
/** For each row its range: its own, its instruction's, or that of the first block that made it. */
export function rangesOf(tree: Tree, table: Table, blocks?: readonly (readonly number[])[]): readonly (Range | null)[];
export const KINDS: readonly ['Implicit', 'Labeled', 'Unlabeled'];

/** Code points (what a table's ranges count), UTF-16 units (indexes of a string), bytes of UTF-8. */
export type OffsetUnit = 'codePoint' | 'utf16' | 'utf8';
/** Converts places in one source. */
export class Offsets {
  constructor(source: string);
  readonly length: { readonly [unit in OffsetUnit]: number };
  /** A place within a character becomes the place where it begins; null where the source has no such place. */
  convert(offset: number, from: OffsetUnit, to: OffsetUnit): number | null;
  range(range: Range, from: OffsetUnit, to: OffsetUnit): [number, number] | null;
}
