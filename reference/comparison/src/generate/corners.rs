//! Small tables made by hand: paper 01's samples, its corners, and the traps of each rule.

use super::draft::Draft;
use crate::model::columns::NONE;
use crate::model::table::BLOCK_WORDS;

/// First and number of instructions, code, columns. Ids and spans follow from the block's number.
type BlockSpec<'s> = (u32, u32, u32, &'s [u32]);

/// The blocks over one set of instructions, places and identifiers:
/// places 0 and 2 have identifier 0, unnamed; place 1 has identifier 1, named; place 3 has 2, unnamed.
fn table(blocks: &[BlockSpec], cases: &[[u32; 2]]) -> Vec<u32> {
    let instructions = vec![
        [30, 0, 0, 0, 0, 50, 60], // 0: other
        [31, 1, 0, 0, 0, 0, 0],   // 1: other, no span
        [32, 1, 1, 0, 0, 52, 52], // 2: loads another identifier than its own
        [33, 0, 1, 2, 0, 53, 63], // 3: loads its own identifier by another place
        [34, 3, 2, 0, 1, 54, 64], // 4: stores to an unnamed identifier
        [35, 3, 2, 0, 2, 55, 65], // 5: stores an identifier to itself, unnamed
        [36, 3, 2, 1, 0, 56, 66], // 6: stores to a named identifier
        [37, 0, 2, 3, 0, 0, 67],  // 7: stores to an unnamed identifier, a span from 0
    ];
    let rows = blocks.iter().zip(0..).map(|((first, count, code, operands), number)| {
        let mut row = [*first, *count, *code, 0, 0, 0, 0, 0, 10 + number, 20 + number, 40 + number];
        row[3..3 + operands.len()].copy_from_slice(operands);
        if *code == 0 { [0; BLOCK_WORDS] } else { row }
    });
    Draft {
        entry: 0,
        blocks: rows.collect(),
        instructions,
        cases: cases.to_vec(),
        places: vec![0, 1, 0, 2],
        identifiers: vec![0, 1, 0],
    }
    .words()
}

/// Paper 01's own samples: one place, one identifier, no instruction, no span.
fn sample(blocks: &[(u32, &[u32], u32)]) -> Vec<u32> {
    let rows = blocks.iter().map(|(code, operands, id)| {
        let mut row = [0, 0, *code, 0, 0, 0, 0, 0, *id, 0, 0];
        row[3..3 + operands.len()].copy_from_slice(operands);
        row
    });
    let blocks = rows.collect();
    Draft { blocks, places: vec![0], identifiers: vec![1], ..Draft::default() }.words()
}

pub fn corners() -> Vec<(&'static str, Vec<u32>)> {
    let mut all = paper();
    all.extend(scheduling());
    all.extend(loops());
    all.extend(jumps());
    all.extend(values());
    all.extend(flattening());
    all.extend(missing());
    all
}

fn paper() -> Vec<(&'static str, Vec<u32>)> {
    let w = |loop_end: (u32, &[u32], u32), entry: &[u32]| {
        sample(&[(9, entry, 1), (6, &[0, 2, 3], 2), loop_end, (3, &[0], 4)])
    };
    let again: (u32, &[u32], u32) = (4, &[1, 1], 3);
    let returns: (u32, &[u32], u32) = (3, &[0], 4);
    vec![
        ("the file sample", sample(&[(3, &[0], 7)])),
        ("W", w(again, &[1, 2, 3])),
        ("W, 2 Goto(3, Break)", w((4, &[3, 0], 3), &[1, 2, 3])),
        ("W, 0 While(1, 2, 1)", w(again, &[1, 2, 1])),
        ("W, 1 empty MaybeThrow(1)", sample(&[(9, &[1, 2, 3], 1), (18, &[1], 2), again, returns])),
        ("scope ended by its break", sample(&[(20, &[1, 2, 5], 1), (4, &[2, 0], 2), returns])),
        ("If whose alternate is emitted", sample(&[(5, &[0, 1, 1, 2], 1), (3, &[0], 2), returns])),
    ]
}

fn scheduling() -> Vec<(&'static str, Vec<u32>)> {
    vec![
        (
            "a loop takes the outer end out of the set; MaybeThrow walks in; 11",
            table(
                &[
                    (0, 0, 5, &[0, 1, 2, 5]),
                    (0, 1, 9, &[3, 4, 5]),
                    (0, 0, 18, &[5]),
                    (0, 1, 6, &[0, 4, 5]),
                    (0, 0, 4, &[3, 1]),
                    (0, 0, 3, &[0]),
                ],
                &[],
            ),
        ),
        (
            "a break resolves on a loop whose label is none",
            table(
                &[
                    (0, 0, 16, &[1, 4]),
                    (0, 0, 9, &[2, 3, 4]),
                    (0, 1, 6, &[0, 3, 4]),
                    (0, 0, 4, &[4, 0]),
                    (0, 0, 3, &[0]),
                ],
                &[],
            ),
        ),
        (
            "a scope's end is remembered: 22 on a later loop",
            table(
                &[
                    (0, 0, 20, &[1, 2, 7]),
                    (0, 0, 4, &[2, 0]),
                    (0, 0, 8, &[3, 4, 2]),
                    (0, 0, 4, &[2, 0]),
                    (0, 0, 6, &[0, 3, 2]),
                ],
                &[],
            ),
        ),
        (
            "a case that is an unreachable fallthrough is visited",
            table(&[(0, 0, 7, &[0, 0, 1, 1]), (0, 1, 1, &[])], &[[NONE, 1]]),
        ),
        (
            "a case that is the scheduled fallthrough is skipped",
            table(
                &[(0, 0, 7, &[0, 0, 3, 2]), (0, 1, 4, &[2, 0]), (0, 0, 3, &[1])],
                &[[0, 2], [1, 1], [NONE, 2]],
            ),
        ),
        (
            "two cases with one block: 14",
            table(&[(0, 0, 7, &[0, 0, 2, 2]), (0, 1, 1, &[]), (0, 0, 3, &[1])], &[[0, 1], [1, 1]]),
        ),
        (
            "Case entries are pushed though the fallthrough is not taken",
            table(
                &[(0, 0, 7, &[0, 0, 2, 3]), (0, 0, 4, &[2, 0]), (0, 1, 3, &[0]), (0, 0, 1, &[])],
                &[[0, 1], [1, 2]],
            ),
        ),
        (
            "a case falls over the next one to a later: Labeled",
            table(
                &[
                    (0, 0, 7, &[0, 0, 3, 4]),
                    (0, 0, 4, &[3, 0]),
                    (0, 0, 4, &[3, 0]),
                    (0, 1, 4, &[4, 0]),
                    (0, 0, 3, &[0]),
                ],
                &[[0, 1], [1, 2], [NONE, 3]],
            ),
        ),
        (
            "no alternate: it equals a fallthrough that is not taken",
            table(&[(0, 0, 5, &[0, 1, 2, 2]), (0, 0, 3, &[1]), (0, 0, 1, &[])], &[]),
        ),
        (
            "an alternate that is the scheduled end of an outer statement: 13",
            table(
                &[
                    (0, 0, 16, &[1, 3]),
                    (0, 0, 5, &[0, 2, 3, 4]),
                    (0, 0, 3, &[0]),
                    (0, 0, 3, &[0]),
                    (0, 0, 3, &[0]),
                ],
                &[],
            ),
        ),
        (
            "a consequent that is the own fallthrough: 12",
            table(&[(0, 0, 5, &[0, 1, 2, 1]), (0, 0, 3, &[0]), (0, 0, 3, &[0])], &[]),
        ),
        (
            "Branch to the scope's end: an empty BLOCK",
            table(
                &[(0, 0, 21, &[1, 2, 5]), (0, 0, 6, &[0, 2, 3]), (0, 0, 3, &[0]), (0, 1, 3, &[1])],
                &[],
            ),
        ),
        (
            "Branch whose alternate is scheduled: 19",
            table(
                &[(0, 0, 16, &[1, 2]), (0, 0, 6, &[0, 3, 2]), (0, 0, 3, &[0]), (0, 0, 3, &[0])],
                &[],
            ),
        ),
        (
            "a Branch jumps out of a loop",
            table(
                &[
                    (0, 0, 9, &[1, 2, 4]),
                    (0, 1, 6, &[0, 2, 4]),
                    (0, 1, 6, &[0, 4, 3]),
                    (0, 0, 4, &[1, 1]),
                    (0, 0, 3, &[0]),
                ],
                &[],
            ),
        ),
        (
            "Try's handler is entered though it is scheduled",
            table(
                &[
                    (0, 0, 16, &[1, 4]),
                    (0, 0, 19, &[2, 4, 3, 1]),
                    (0, 0, 4, &[3, 2]),
                    (0, 0, 4, &[4, 0]),
                    (0, 0, 3, &[0]),
                ],
                &[],
            ),
        ),
        (
            "a catch handler may be a continue block",
            table(
                &[
                    (0, 0, 19, &[1, 3, 4, NONE]),
                    (0, 0, 9, &[3, 2, 4]),
                    (0, 0, 4, &[3, 1]),
                    (0, 1, 6, &[0, 5, 6]),
                    (0, 0, 3, &[0]),
                    (0, 0, 3, &[0]),
                    (0, 0, 2, &[0]),
                ],
                &[],
            ),
        ),
        (
            "a catch handler is no loop block: 16",
            table(
                &[
                    (0, 0, 19, &[1, 3, 4, NONE]),
                    (0, 0, 9, &[2, 3, 4]),
                    (0, 1, 6, &[0, 3, 4]),
                    (0, 0, 3, &[0]),
                    (0, 0, 3, &[0]),
                ],
                &[],
            ),
        ),
        (
            "an If's consequent is a catch handler: 12",
            table(
                &[
                    (0, 0, 19, &[1, 3, 4, NONE]),
                    (0, 0, 5, &[0, 3, 4, 4]),
                    (0, 0, 3, &[0]),
                    (0, 0, 3, &[0]),
                    (0, 0, 3, &[0]),
                ],
                &[],
            ),
        ),
        (
            "a MaybeThrow stops at a scheduled continuation",
            table(&[(0, 0, 16, &[1, 2]), (0, 1, 18, &[2]), (0, 0, 3, &[0])], &[]),
        ),
        ("a Label whose block is its end: 17", table(&[(0, 0, 16, &[1, 1]), (0, 0, 3, &[0])], &[])),
        (
            "a Scope whose block is its end: 18",
            table(&[(0, 0, 20, &[1, 1, 3]), (0, 0, 3, &[0])], &[]),
        ),
        (
            "a scope inside a scope with one end",
            table(
                &[
                    (0, 0, 20, &[1, 3, 4]),
                    (0, 0, 21, &[2, 3, 5]),
                    (0, 0, 4, &[3, 0]),
                    (0, 0, 3, &[0]),
                ],
                &[],
            ),
        ),
        (
            "a loop's continue block can be walked into after the loop",
            table(
                &[
                    (0, 0, 9, &[1, 2, 3]),
                    (0, 1, 6, &[0, 4, 5]),
                    (0, 0, 4, &[1, 1]),
                    (0, 0, 18, &[1]),
                    (0, 0, 3, &[0]),
                    (0, 0, 3, &[1]),
                ],
                &[],
            ),
        ),
        (
            "a loop's block is not scheduled after the loop: 11 and no stop",
            table(
                &[(0, 0, 9, &[1, 2, 3]), (0, 1, 6, &[0, 2, 3]), (0, 0, 3, &[0]), (0, 0, 18, &[2])],
                &[],
            ),
        ),
        (
            "a scope that does not take its end is not remembered: a break gives its row",
            table(
                &[(0, 0, 16, &[1, 3]), (0, 0, 20, &[2, 3, 7]), (0, 0, 4, &[3, 0]), (0, 0, 3, &[0])],
                &[],
            ),
        ),
        (
            "a break out of a scope from an If: 22",
            table(
                &[
                    (0, 0, 20, &[1, 4, 4]),
                    (0, 0, 5, &[0, 2, 3, 3]),
                    (0, 0, 4, &[4, 0]),
                    (0, 0, 4, &[4, 0]),
                    (0, 0, 3, &[0]),
                ],
                &[],
            ),
        ),
    ]
}

fn loops() -> Vec<(&'static str, Vec<u32>)> {
    let branch: BlockSpec = (0, 1, 6, &[0, 2, 3]);
    let returns: BlockSpec = (0, 0, 3, &[0]);
    vec![
        (
            "While makes its test before 16",
            table(&[(0, 0, 9, &[1, 3, 3]), (0, 0, 4, &[0, 0]), returns, returns], &[]),
        ),
        (
            "While whose loop is its end: 16",
            table(&[(0, 0, 9, &[1, 3, 3]), branch, returns, returns], &[]),
        ),
        (
            "DoWhile refuses 16 before its test",
            table(&[(0, 0, 8, &[3, 1, 3]), (0, 0, 4, &[0, 0]), returns, returns], &[]),
        ),
        (
            "For makes all its values before 16",
            table(&[(0, 0, 10, &[1, 1, 2, 3, 3]), branch, (0, 0, 4, &[1, 0]), returns], &[]),
        ),
        (
            "15 before 16 and before any value",
            table(&[(0, 0, 9, &[3, 3, 3]), returns, returns, returns], &[]),
        ),
        (
            "15 where an outer loop has the continue block",
            table(
                &[
                    (0, 0, 9, &[1, 2, 3]),
                    branch,
                    (0, 0, 9, &[1, 4, 5]),
                    returns,
                    (0, 0, 4, &[1, 1]),
                    returns,
                ],
                &[],
            ),
        ),
        (
            "the loop block is its own continue block",
            table(&[(0, 0, 8, &[1, 1, 2]), (0, 1, 6, &[0, 3, 4]), returns, returns, returns], &[]),
        ),
        (
            "two loops with one continue block; the innermost is meant",
            table(
                &[
                    (0, 0, 9, &[1, 2, 3]),
                    branch,
                    (0, 0, 5, &[0, 4, 5, 6]),
                    returns,
                    (0, 0, 9, &[7, 8, 1]),
                    (0, 0, 8, &[9, 1, 10]),
                    (0, 0, 4, &[1, 1]),
                    (0, 1, 6, &[0, 8, 1]),
                    returns,
                    (0, 0, 4, &[1, 1]),
                    (0, 1, 4, &[6, 0]),
                ],
                &[],
            ),
        ),
        (
            "loops whose end is unreachable: only While leaves it",
            table(&[(0, 0, 9, &[1, 2, 3]), branch, (0, 0, 4, &[1, 1]), (0, 0, 1, &[])], &[]),
        ),
        (
            "a DoWhile goes on to its unreachable end",
            table(&[(0, 0, 8, &[2, 1, 3]), branch, (0, 0, 4, &[1, 1]), (0, 1, 1, &[])], &[]),
        ),
        (
            "For with an update: the continue block is the update",
            table(
                &[
                    (0, 0, 10, &[4, 1, 5, 2, 3]),
                    branch,
                    (0, 0, 4, &[5, 1]),
                    returns,
                    (0, 1, 4, &[1, 0]),
                    (1, 1, 4, &[1, 0]),
                ],
                &[],
            ),
        ),
        (
            "For without an update: the continue block is the test",
            table(
                &[
                    (0, 0, 10, &[4, 1, NONE, 2, 3]),
                    branch,
                    (0, 0, 4, &[1, 1]),
                    returns,
                    (0, 1, 4, &[1, 0]),
                ],
                &[],
            ),
        ),
        (
            "ForOf continues at its init",
            table(
                &[
                    (0, 0, 11, &[4, 1, 2, 3]),
                    branch,
                    (0, 0, 4, &[4, 1]),
                    returns,
                    (0, 1, 4, &[1, 0]),
                ],
                &[],
            ),
        ),
        (
            "ForIn continues at its init",
            table(&[(0, 0, 12, &[1, 2, 3]), branch, (0, 0, 4, &[1, 1]), returns], &[]),
        ),
    ]
}

fn jumps() -> Vec<(&'static str, Vec<u32>)> {
    let returns: BlockSpec = (0, 0, 3, &[0]);
    // A loop in a loop, the inner one in an If; block 5 is the innermost body.
    let nest = |jump: &[u32]| {
        table(
            &[
                (0, 0, 9, &[1, 2, 3]),
                (0, 1, 6, &[0, 2, 3]),
                (0, 0, 9, &[6, 4, 7]),
                returns,
                (0, 0, 5, &[0, 5, 8, 8]),
                (0, 1, 4, jump),
                (0, 1, 6, &[0, 4, 7]),
                (0, 0, 4, &[1, 1]),
                (0, 0, 4, &[6, 1]),
            ],
            &[],
        )
    };
    vec![
        ("break of the outer loop: Labeled", nest(&[3, 0])),
        ("break of the inner loop under an If: Unlabeled", nest(&[7, 0])),
        ("break of the If: Implicit", nest(&[8, 0])),
        ("continue of the outer loop: Labeled", nest(&[1, 1])),
        ("continue of the inner loop under an If: Unlabeled", nest(&[6, 1])),
        ("a break by a Goto to a continue block: 20", nest(&[6, 0])),
        ("a continue to an end: 21", nest(&[7, 1])),
        ("a Goto Try gives no row", nest(&[8, 2])),
        (
            "break of a label from a loop: Labeled",
            table(
                &[
                    (0, 0, 16, &[1, 5]),
                    (0, 0, 9, &[2, 3, 4]),
                    (0, 1, 6, &[0, 3, 4]),
                    (0, 0, 4, &[5, 0]),
                    (0, 0, 4, &[5, 0]),
                    returns,
                ],
                &[],
            ),
        ),
        (
            "break of a label from an If: Labeled",
            table(
                &[
                    (0, 0, 16, &[1, 4]),
                    (0, 0, 5, &[0, 2, 3, 3]),
                    (0, 0, 4, &[4, 0]),
                    (0, 0, 4, &[4, 0]),
                    returns,
                ],
                &[],
            ),
        ),
        ("no break target: 20", table(&[(0, 0, 4, &[0, 0])], &[])),
        ("no continue target: 21", table(&[(0, 0, 4, &[0, 1])], &[])),
        (
            "a Switch is no loop: a break of the loop around it is Unlabeled",
            table(
                &[
                    (0, 0, 9, &[1, 2, 3]),
                    (0, 1, 6, &[0, 2, 3]),
                    (0, 0, 7, &[0, 0, 1, 4]),
                    returns,
                    (0, 0, 4, &[1, 1]),
                    (0, 0, 4, &[3, 0]),
                ],
                &[[0, 5]],
            ),
        ),
    ]
}

fn values() -> Vec<(&'static str, Vec<u32>)> {
    let returns: BlockSpec = (0, 0, 3, &[0]);
    let leaf: BlockSpec = (0, 1, 4, &[1, 0]);
    let two: BlockSpec = (0, 2, 4, &[1, 0]);
    // Block 0 is a value statement whose end is 1; block 2 its test or its value.
    let statement = |end: BlockSpec, rest: &[BlockSpec]| {
        let mut blocks = vec![end, returns];
        blocks.extend(rest);
        table(&blocks, &[])
    };
    let sequence: BlockSpec = (0, 1, 17, &[2, 1]);
    vec![
        ("Sequence of one instruction", statement(sequence, &[leaf])),
        ("Sequence of several", statement(sequence, &[(0, 4, 4, &[1, 0])])),
        ("a value reached at its end: 23", statement((0, 0, 17, &[1, 1]), &[])),
        ("23 through a MaybeThrow", statement(sequence, &[(0, 0, 18, &[1])])),
        ("an empty Goto value: 24", statement(sequence, &[(0, 0, 4, &[1, 0])])),
        ("a Label in a value: 26", statement(sequence, &[(0, 1, 16, &[1, 1])])),
        ("another kind in a value: 27", statement(sequence, &[(0, 1, 3, &[0])])),
        ("a missing block in a value: 10", statement(sequence, &[(0, 0, 0, &[])])),
        (
            "a MaybeThrow before an empty Goto takes its own last instruction",
            statement(sequence, &[(0, 2, 18, &[3]), (0, 0, 4, &[1, 0])]),
        ),
        ("28: it has none", statement(sequence, &[(0, 0, 18, &[3]), (0, 0, 4, &[1, 0])])),
        ("an empty MaybeThrow adds no sequence", statement(sequence, &[(0, 0, 18, &[3]), two])),
        ("a MaybeThrow with instructions adds one", statement(sequence, &[(1, 1, 18, &[3]), two])),
        (
            "the continuation is looked up: 10, and no visit for it",
            statement(sequence, &[(1, 1, 18, &[3]), (0, 0, 0, &[])]),
        ),
        (
            "so it is before an empty MaybeThrow: 10 and not 28",
            statement(sequence, &[(0, 0, 18, &[3]), (0, 0, 0, &[])]),
        ),
        (
            "a store to an unnamed identifier becomes a LOAD",
            statement(sequence, &[(4, 1, 4, &[1, 0])]),
        ),
        ("a store to a named one stays", statement(sequence, &[(6, 1, 4, &[1, 0])])),
        ("a store that is not last stays", statement(sequence, &[(4, 2, 4, &[1, 0])])),
        (
            "Ternary over an empty Branch block",
            statement((0, 0, 14, &[2, 1]), &[(0, 0, 6, &[3, 3, 4]), leaf, two]),
        ),
        (
            "Logical: the terminal's span in the inner INSTR",
            statement((1, 1, 13, &[2, 2, 1]), &[(0, 2, 6, &[3, 3, 4]), leaf, two]),
        ),
        (
            "Optional: the Branch block's span in the inner INSTR",
            statement((1, 1, 15, &[1, 2, 1]), &[(0, 2, 6, &[3, 3, 0]), leaf]),
        ),
        (
            "a test that ends in a Goto: 25 at the terminal's block",
            statement((0, 0, 14, &[2, 1]), &[(0, 1, 4, &[3, 0]), leaf]),
        ),
        (
            "25 by way of a MaybeThrow before an empty Goto",
            statement((0, 0, 13, &[0, 2, 1]), &[(0, 1, 18, &[3]), (0, 0, 4, &[1, 0])]),
        ),
        (
            "25 in a value: the inner terminal's block",
            statement(sequence, &[(0, 0, 14, &[3, 4]), (0, 1, 4, &[1, 0]), leaf]),
        ),
        (
            "a value in a value: the span passed down, and its end visited with none forbidden",
            statement(sequence, &[(1, 1, 17, &[3, 4]), (0, 1, 4, &[4, 0]), two]),
        ),
        (
            "an inner value may run into the outer one's end",
            statement(
                (0, 0, 17, &[2, 3]),
                &[(0, 1, 17, &[4, 3]), (0, 1, 6, &[0, 1, 5]), (0, 1, 4, &[3, 0]), returns],
            ),
        ),
        (
            "blocks of values are visited as often as they are named",
            statement((0, 0, 14, &[2, 1]), &[(0, 0, 6, &[0, 3, 3]), leaf]),
        ),
        (
            "a value block may be emitted too",
            table(
                &[
                    (0, 0, 9, &[1, 2, 3]),
                    (0, 1, 6, &[0, 2, 3]),
                    (0, 0, 17, &[4, 5]),
                    returns,
                    (0, 1, 4, &[5, 2]),
                    (0, 0, 18, &[4]),
                ],
                &[],
            ),
        ),
        (
            "a value statement whose end is scheduled goes nowhere",
            table(&[(0, 0, 16, &[1, 2]), (0, 0, 17, &[3, 2]), returns, (0, 1, 4, &[2, 0])], &[]),
        ),
        (
            "a loop's test with a value in it: the loop's span",
            table(
                &[
                    (0, 0, 9, &[1, 2, 3]),
                    (1, 1, 13, &[1, 4, 7]),
                    (0, 0, 4, &[1, 1]),
                    returns,
                    (0, 1, 6, &[0, 5, 6]),
                    (0, 1, 4, &[7, 0]),
                    (0, 1, 4, &[7, 0]),
                    (0, 0, 6, &[2, 2, 3]),
                ],
                &[],
            ),
        ),
    ]
}

fn flattening() -> Vec<(&'static str, Vec<u32>)> {
    // A ForIn whose init is block 1, going on to blocks from 4 on.
    let for_in = |init: BlockSpec, rest: &[BlockSpec]| {
        let mut blocks =
            vec![(0, 0, 12, &[1, 2, 3][..]), init, (0, 0, 3, &[0][..]), (0, 0, 3, &[0])];
        blocks.extend(rest);
        table(&blocks, &[])
    };
    vec![
        ("one instruction", for_in((0, 1, 6, &[0, 2, 3]), &[])),
        ("several", for_in((0, 3, 6, &[0, 2, 3]), &[])),
        (
            "an empty Branch: its LOAD is of the result's own place, dropped",
            for_in((0, 0, 6, &[0, 2, 3]), &[]),
        ),
        ("a load of another identifier stays", for_in((2, 1, 6, &[0, 2, 3]), &[])),
        (
            "a load of its own identifier by another place is dropped",
            for_in((3, 1, 6, &[0, 2, 3]), &[]),
        ),
        ("a LOAD made from a store stays", for_in((4, 1, 6, &[0, 2, 3]), &[])),
        (
            "a LOAD made from a store of the same identifier is dropped",
            for_in((5, 1, 6, &[0, 2, 3]), &[]),
        ),
        ("a store to a named identifier stays", for_in((6, 1, 6, &[0, 2, 3]), &[])),
        ("dropped after others", for_in((2, 2, 6, &[0, 2, 3]), &[])),
        ("through a MaybeThrow", for_in((0, 2, 18, &[4]), &[(2, 2, 6, &[0, 2, 3])])),
        ("through two", for_in((0, 2, 18, &[4]), &[(1, 1, 18, &[5]), (0, 2, 6, &[0, 2, 3])])),
        (
            "through a value terminal's end, whose own value stays nested",
            for_in((0, 1, 17, &[4, 5]), &[(0, 2, 4, &[5, 0]), (1, 2, 6, &[0, 2, 3])]),
        ),
        (
            "through a value terminal to a dropped load",
            for_in((0, 1, 17, &[4, 5]), &[(0, 2, 4, &[5, 0]), (0, 0, 6, &[0, 2, 3])]),
        ),
        (
            "For: the init is flattened, the test and the update are not",
            table(
                &[
                    (0, 0, 10, &[1, 4, 5, 2, 3]),
                    (0, 3, 4, &[4, 0]),
                    (0, 0, 3, &[0]),
                    (0, 0, 3, &[0]),
                    (0, 3, 6, &[0, 2, 3]),
                    (0, 3, 4, &[4, 0]),
                ],
                &[],
            ),
        ),
        (
            "ForOf: both are flattened",
            table(
                &[
                    (0, 0, 11, &[1, 4, 2, 3]),
                    (0, 3, 18, &[5]),
                    (0, 0, 3, &[0]),
                    (0, 0, 3, &[0]),
                    (2, 2, 6, &[0, 2, 3]),
                    (0, 0, 4, &[4, 0]),
                ],
                &[],
            ),
        ),
    ]
}

fn missing() -> Vec<(&'static str, Vec<u32>)> {
    let none: BlockSpec = (0, 0, 0, &[]);
    let returns: BlockSpec = (0, 0, 3, &[0]);
    vec![
        ("the entry is missing", table(&[none], &[])),
        (
            "a missing fallthrough is asked first: 10, one visit",
            table(&[(0, 0, 5, &[0, 2, 2, 1]), none, none], &[]),
        ),
        ("While asks its end before 15", table(&[(0, 0, 9, &[1, 1, 1]), none], &[])),
        ("Label asks its end before 17", table(&[(0, 0, 16, &[1, 1]), none], &[])),
        ("Switch asks its end", table(&[(0, 0, 7, &[0, 0, 0, 1]), none], &[])),
        ("Try asks its end", table(&[(0, 0, 19, &[2, 2, 1, NONE]), none, returns], &[])),
        (
            "DoWhile does not ask, and walks into it: 10",
            table(&[(0, 0, 8, &[1, 2, 3]), returns, (0, 1, 6, &[0, 1, 3]), none], &[]),
        ),
        (
            "a scope does not ask, and walks into it: 10",
            table(&[(0, 0, 20, &[1, 2, 0]), returns, none], &[]),
        ),
        (
            "a scheduled missing block is no visit",
            table(&[(0, 0, 20, &[1, 2, 0]), (0, 0, 18, &[2]), none], &[]),
        ),
    ]
}
