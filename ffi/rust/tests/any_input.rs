//! Any input: every public function on empty, odd and huge slices, and on a good table and tree spoilt word by word. None panics but where
//! its page says so, and where a call refuses, what was lent holds zeros. Each is called by its path (`every_public_function_is_called`).

use reactive_build::columns::Holds;
use reactive_build::outline;
use reactive_build::table::{Block, BlockRow, Case, Ending, IdentifierRow, Instruction, PlaceRow, Table, Value, Variant};
use reactive_build::table_check::Checked;
use reactive_build::tree::{Kind, Node, Nodes, Op, Operator, Row};
use reactive_build::{
    CODES, LINE_WORDS, Outcome, ROW_WORDS, Refusal, Span, code, convert, dot, lookup, order, plain, preview, table_check, tree_check,
    tree_run,
};
use std::array;
use std::fs;
use std::path::Path;

/// W of paper 01 with a switch after it.
fn good_table() -> Vec<u32> {
    let mut table = Table::default();
    let named = table.identifier(true);
    let place = table.place(named);
    let [test, body, after, case, end] = [1, 2, 3, 4, 5].map(BlockRow);
    table.block(&[], Ending::While { test, loop_block: body, fallthrough: after }, 1, Span::of_words(3, 9));
    table.block(&[], Ending::Branch { test: place, consequent: body, alternate: after }, 2, None);
    table.block(&[], Ending::Goto { block: test, variant: Variant::Continue }, 3, None);
    let switch = table.switch(place, &[Case { test: None, block: case }], end);
    table.block(&[], switch, 4, None);
    table.block(&[], Ending::Return { value: place }, 5, None);
    table.block(&[], Ending::Return { value: place }, 6, None);
    table.words()
}

const EDGES: [u32; 8] = [0, 1, 6, 1_024, 4_097, 65_535, 65_536, u32::MAX];

/// Slices of every sort, with a word of the good one replaced, or cut off at any length.
fn slices(good: &[u32]) -> Vec<Vec<u32>> {
    let mut slices: Vec<Vec<u32>> = (0..=good.len()).map(|length| good[..length].to_vec()).collect();
    for at in 0..good.len() {
        for word in EDGES {
            let mut spoilt = good.to_vec();
            spoilt[at] = word;
            slices.push(spoilt);
        }
    }
    for word in EDGES {
        slices.extend([1, 5, 6, 7, 11, 13, 1_000].map(|length| vec![word; length]));
        slices.push([good, &[word]].concat());
    }
    slices
}

fn huge(word: u32) -> Vec<u32> {
    vec![word; 3_000_001]
}

fn zeros<T: PartialEq + From<u8>>(lent: &[T]) -> bool {
    lent.iter().all(|word| *word == T::from(0))
}

fn refused(code: u32) -> bool {
    code != 0
}

/// Every function that takes a table's words, with so many words and bytes lent.
fn words_are_taken(words: &[u32], lent: usize) {
    let (mut tree, mut index, mut text) = (vec![7; lent], vec![7; lent], vec![7; lent]);
    for build in [reactive_build::build, reactive_build::build_language] {
        let built = build(words, &mut tree, &mut index);
        assert_eq!(Outcome::refusal(&built).is_some(), refused(built.code));
        assert!(!refused(built.code) || zeros(&tree) && zeros(&index));
        let parts = &tree[..(built.rows as usize * ROW_WORDS).min(lent)];
        rows_are_taken(if refused(built.code) { &tree } else { parts }, &index, built.lines);
    }
    let by_the_rust = (reactive_build::rows as fn(&_) -> _, preview::preview as fn(&_) -> _);
    for (rows, preview) in [by_the_rust, (reactive_build::rows_language, preview::preview_language)] {
        let Outcome { code, at, rows: count, .. } = preview(words);
        match rows(words) {
            Ok(rows) => assert_eq!((code, rows.len()), (0, count as usize)),
            Err(refusal) => assert_eq!(refusal, Refusal { code, at }),
        }
    }
    assert_eq!(preview::tree(words).map(|tree| tree.rows), reactive_build::rows(words));
    assert_eq!(preview::tree_language(words).map(|tree| tree.rows), reactive_build::rows_language(words));
    assert_eq!(table_check::is_table(words), Checked::result(&table_check::check(words)));
    assert_eq!(plain::law(words).err(), table_check::is_table(words).err());
    let drawn = dot::draw(words, &mut text);
    assert!(!refused(drawn.code) || zeros(&text));
    assert!(dot::largest_of(words) <= dot::LARGEST);
    match dot::text(words) {
        Ok(text) => assert!(text.len() <= dot::largest_of(words)),
        Err(refusal) => assert!(refused(drawn.code) && refusal.code != code::DRAWING_LENT),
    }
    let placed = convert::write(words, &mut text);
    assert!(!refused(placed.code) || zeros(&text));
    let moved = order::rearrange(words, &mut tree, &mut index);
    assert!(!refused(moved.code) || zeros(&tree) && zeros(&index));
    let moved = order::restore(words, words, &mut tree);
    assert!(!refused(moved.code) || zeros(&tree));
    if let Ok(rearranged) = order::rearranged(words) {
        assert_eq!(order::restored(&rearranged).as_deref(), Ok(words));
    }
    let rearranged = order::Rearranged { words: words.to_vec(), old_numbers: words.to_vec() };
    assert_eq!(order::restored(&rearranged).is_err(), refused(order::restore(words, words, &mut words.to_vec()).code));
    if let Ok(table) = Table::of_words(words) {
        assert_eq!(Table::words(&table), words);
    }
}

/// Every function that takes rows.
fn rows_are_taken(tree: &[u32], index: &[u32], lines: u32) {
    assert_eq!(tree_check::is_tree(tree), Checked::result(&tree_check::check(tree)));
    for lines in [lines, 0, 1, u32::MAX] {
        for label in [0, 3, 65_535, u32::MAX] {
            let found = lookup::find(index, lines, label, tree);
            let looked = lookup::lookup(index, lines, label, tree);
            assert_eq!(
                looked.map(<[u32]>::len),
                if refused(found.code) { Err(Refusal { code: found.code, at: found.at }) } else { Ok(found.end - found.begin) }
            );
        }
    }
    for length in [0, 1, 64] {
        let mut performed = vec![7; length];
        let ran = tree_run::run(tree, &[1, 0, u32::MAX, 1], &mut performed);
        assert!(!refused(ran.code) || zeros(&performed));
        assert_eq!(tree_run::performs(tree, &[], &mut performed).is_ok(), !refused(tree_run::run(tree, &[], &mut vec![7; length]).code));
    }
    let (rows, _) = tree.as_chunks::<ROW_WORDS>();
    nodes_are_taken(rows);
    rows.iter().for_each(row_is_taken);
}

/// Every function of the nodes of a tree.
fn nodes_are_taken(rows: &[Row]) {
    let Ok(nodes) = Nodes::of(rows) else { return };
    assert_eq!((Nodes::body(&nodes), Nodes::walk(&nodes).count()), (rows.len() - 1, rows.len()));
    assert!(Nodes::iter(&nodes).eq(Nodes::as_slice(&nodes)));
    assert!((&nodes).into_iter().map(Node::row).eq(rows.iter().copied()));
    assert!(outline::lines(&nodes).iter().map(|line| (line.row, line.depth)).eq(Nodes::walk(&nodes).map(|visit| (visit.row, visit.depth))));
    assert_eq!(nodes.to_string().lines().count(), rows.len());
    for row in 0..rows.len() {
        assert!(outline::roles(&nodes[row]).len() <= Node::part_count(&nodes[row]));
        let mut of_source: Vec<usize> = Nodes::parts_of_source(&nodes, row).collect();
        of_source.sort_unstable();
        assert!(Nodes::parts(&nodes, row).eq(of_source));
        let subtree = Nodes::subtree(&nodes, row);
        let parts: Vec<usize> = Nodes::parts(&nodes, row).map(|part| Nodes::subtree(&nodes, part).len()).collect();
        assert_eq!((parts.len(), parts.iter().sum::<usize>() + 1), (Node::part_count(&nodes[row]), subtree.len()));
    }
}

/// Every function of one row.
fn row_is_taken(row: &Row) {
    let span = Span::of_row(row);
    if let Some(node) = Node::of_row(row) {
        assert_eq!((Node::row(&node), Node::span(&node)), (*row, span));
        assert_eq!(Op::of(row[0]), Some(Node::op(&node)));
        let of_a_label = (10..=19).contains(&row[0]);
        assert!(Node::label(&node).is_none_or(|label| of_a_label && row.contains(&label.0)));
        assert_eq!(node.to_string().split(' ').next(), Some(Op::name(Node::op(&node))));
        assert!(outline::pieces(&node).iter().all(|piece| node.to_string().contains(&piece.to_string())));
        assert!(Node::part_count(&node) <= u32::MAX as usize + 1);
    }
}

/// Every function that takes a file's bytes.
fn bytes_are_taken(file: &[u8], lent: usize) {
    for converted in [convert::old_to_new, convert::new_to_old] {
        let mut text = vec![7; lent];
        let placed = converted(file, &mut text);
        assert!(!refused(placed.code) || zeros(&text));
        assert!(placed.length <= lent);
    }
    let mut words = vec![7; lent];
    let read = convert::read(file, &mut words);
    assert!(if refused(read.code) { read.count == 0 && zeros(&words) } else { zeros(&words[read.count..]) });
    match convert::read_table(file) {
        Ok(whole) if whole.len() <= lent => assert_eq!((read.code, &whole[..]), (0, &words[..read.count])),
        Ok(_) => assert_eq!((read.code, read.at), (code::WORDS_LENT, 0)),
        Err(refusal) => assert_eq!(refusal, Refusal { code: read.code, at: read.at }),
    }
}

#[test]
fn words_of_any_sort() {
    for words in slices(&good_table()) {
        [0, 1, 12, 400].into_iter().for_each(|lent| words_are_taken(&words, lent));
    }
}

#[test]
fn rows_of_any_sort() {
    let good = reactive_build::rows(&good_table()).expect("a tree").concat();
    for tree in slices(&good) {
        rows_are_taken(&tree, &tree, tree.len() as u32);
    }
}

#[test]
fn bytes_of_any_sort() {
    let mut text = vec![0; 4_096];
    let written = convert::write(&good_table(), &mut text);
    let good = &text[..written.length];
    for at in 0..good.len() {
        bytes_are_taken(&good[..at], 4_096);
        for byte in [0, b' ', b'9', b'\n', b'\r', 0xff] {
            let mut spoilt = good.to_vec();
            spoilt[at] = byte;
            bytes_are_taken(&spoilt, 4_096);
        }
    }
    for lent in [0, 1, written.length, 100_000] {
        bytes_are_taken(good, lent);
        bytes_are_taken(&[], lent);
        bytes_are_taken(&vec![b'1'; 5_000_000], lent);
    }
}

#[test]
fn what_is_written_is_read_and_a_spoilt_byte_is_found() {
    let (words, mut text) = (good_table(), vec![0; 4_096]);
    let written = convert::write(&words, &mut text);
    let good = &text[..written.length];
    assert_eq!(convert::read_table(good).as_ref(), Ok(&words));
    for (lent, code) in [(words.len(), 0), (words.len() - 1, code::WORDS_LENT), (0, code::WORDS_LENT)] {
        assert_eq!(convert::read(good, &mut vec![7; lent]).code, code);
    }
    for at in 0..good.len() {
        let refusal = |at: usize| Err(Refusal { code: code::FORM, at: at as u32 });
        assert_eq!(convert::read_table(&good[..at]), refusal(at));
        for byte in [0, b'\r', 0xff] {
            let mut spoilt = good.to_vec();
            spoilt[at] = byte;
            assert_eq!(convert::read_table(&spoilt), refusal(at));
        }
    }
    assert_eq!(convert::read_table(&[good, b"\n"].concat()), Err(Refusal { code: code::FORM, at: good.len() as u32 }));
    for length in [32_768, 32_769, 5_000_000] {
        let code = if length > 32_768 { code::FILE_LENGTH } else { code::FORM };
        assert_eq!(convert::read_table(&vec![b'1'; length]), Err(Refusal { code, at: 0 }));
    }
}

#[test]
fn huge_slices() {
    for word in [0, 1, u32::MAX] {
        let huge = huge(word);
        words_are_taken(&huge, 12);
        words_are_taken(&good_table(), 3_000_001);
        rows_are_taken(&huge, &huge, u32::MAX);
        tree_run::run(&reactive_build::rows(&good_table()).expect("a tree").concat(), &huge, &mut vec![7; 3_000_001]);
        let mut table = Table::default();
        let (block, place) = (BlockRow(word), PlaceRow(word));
        let instruction = Instruction { id: word, lvalue: place, value: Value::Other, span: None };
        let switch = Table::switch(&mut table, place, &vec![Case { test: Some(place), block }; 300_000], block);
        Table::block(&mut table, &vec![instruction; 300_000], switch, word, None);
        assert!(matches!(reactive_build::rows(&Table::words(&table)), Err(Refusal { code: code::COUNT_LIMIT, .. })));
    }
}

/// What is told of numbers: each at an edge, and each that an op, an ending or a code could have.
#[test]
fn numbers_of_any_size() {
    for number in (0..100).chain(EDGES) {
        let kinds = [Kind::of(number).map(Kind::number), Operator::of(number).map(Operator::number)];
        let others = [Variant::of(number).map(Variant::number), Op::of(number).map(Op::number)];
        assert!(kinds.into_iter().chain(others).flatten().all(|told| told == number));
        assert!(Op::of(number).is_none_or(|op| !Op::name(op).is_empty() && Op::columns(op).len() < 5));
        assert_eq!(Ending::columns_of(number).is_some(), number < 22);
        let names = [Kind::of(number).map(Kind::name), Operator::of(number).map(Operator::name), Variant::of(number).map(Variant::name)];
        assert!(names.into_iter().all(|name| name.is_some() == (number < 3)));
        for word in EDGES {
            (0..6).for_each(|used| columns_are_taken(number, array::from_fn(|at| if at < used { word } else { 0 })));
            assert_eq!(Span::words(Span::of_words(number, word)), [number, word]);
            let refusal = Refusal { code: number, at: word };
            let listed = CODES.iter().any(|(code, _)| *code == number);
            assert_eq!((Refusal::at_counts(&refusal).is_some(), Refusal::sentence(&refusal).is_some()), (listed, listed));
            assert!(refusal.to_string().starts_with(&number.to_string()));
        }
    }
    assert_eq!(LINE_WORDS, lookup::LINE_WORDS);
}

/// An op or a code with its columns a to e: as a row of a tree, of the blocks and of the instructions.
fn columns_are_taken(number: u32, columns: [u32; 5]) {
    let [a, b, c, d, e] = columns;
    row_is_taken(&[number, a, b, c, d, e]);
    if let Some(ending) = Ending::of_columns(number, columns) {
        assert_eq!((Ending::code(&ending), Ending::columns(&ending)), (number, columns));
        assert_eq!(Ending::name(&ending), Ending::NAMES[number as usize]);
        assert!(Ending::blocks(&ending).all(|block| columns.contains(&block.0)));
        let used = Ending::columns_of(number).expect("a code");
        assert!(used.iter().all(|column| !Holds::name(column.holds).is_empty()));
        let blocks = used.iter().zip(columns).filter(|(column, word)| match column.holds {
            Holds::Block => true,
            Holds::BlockOrNone => *word != 65_535,
            _ => false,
        });
        assert!(blocks.map(|(_, word)| BlockRow(word)).eq(Ending::blocks(&ending)));
    }
    let row = [e, d, number, a, b, c, d, e, a, b, c];
    assert!(Block::of_row(&row).is_none_or(|block| Block::row(&block) == row));
    let row = [e, d, number, a, b, c, d];
    assert!(Instruction::of_row(&row).is_none_or(|instruction| Instruction::row(&instruction) == row));
}

#[test]
fn a_table_of_any_numbers() {
    for word in EDGES {
        let mut table = Table { entry: BlockRow(word), places: vec![IdentifierRow(word)], ..Table::default() };
        let place = Table::place(&mut table, IdentifierRow(word));
        let switch = Table::switch(&mut table, place, &[], BlockRow(word));
        Table::block(&mut table, &[], switch, word, Span::of_words(word, 0));
        assert!(reactive_build::rows(&Table::words(&table)).is_err(), "it has no identifier");
        assert_eq!((place, Table::identifier(&mut table, true)), (PlaceRow(1), IdentifierRow(0)));
    }
}

#[test]
#[should_panic(expected = "index out of bounds")]
fn the_parts_of_a_row_that_is_not_there_panic_as_documented() {
    let nodes = Nodes::of(&[[9, 0, 0, 0, 0, 0]]).expect("a tree");
    Nodes::parts(&nodes, 1).next();
}

#[test]
#[should_panic(expected = "index out of bounds")]
fn the_node_of_a_row_that_is_not_there_panics_as_documented() {
    let nodes = Nodes::of(&[[9, 0, 0, 0, 0, 0]]).expect("a tree");
    let _ = nodes[1];
}

#[test]
#[should_panic(expected = "index out of bounds")]
fn the_subtree_of_a_row_that_is_not_there_panics_as_documented() {
    let nodes = Nodes::of(&[[9, 0, 0, 0, 0, 0]]).expect("a tree");
    let _ = Nodes::subtree(&nodes, usize::MAX);
}

/// The public functions of a source: `module::name`, those of lib.rs `reactive_build::name`, and `Type::name`.
fn public_functions(module: &str, source: &str) -> Vec<String> {
    let mut owner = module;
    let mut functions = Vec::new();
    for line in source.lines() {
        if let Some(of) = line.strip_prefix("impl ") {
            owner = of.trim_end_matches(" {");
        } else if line == "}" {
            owner = module;
        }
        let line = line.trim_start().replace("pub const fn ", "pub fn ");
        if let Some(rest) = line.strip_prefix("pub fn ") {
            functions.push(format!("{owner}::{}", rest.split(['(', '<']).next().unwrap_or_default()));
        }
    }
    functions
}

/// Read as text, comments aside: none may be added and forgotten here.
#[test]
fn every_public_function_is_called() {
    let here: Vec<&str> = include_str!("any_input.rs").lines().filter(|line| !line.trim_start().starts_with("//")).collect();
    let here = here.join("\n");
    let inside = |letter: char| letter.is_alphanumeric() || letter == '_';
    let called = |name: &String| {
        here.match_indices(name.as_str()).any(|(at, _)| !here[..at].ends_with(inside) && !here[at + name.len()..].starts_with(inside))
    };
    let mut functions = Vec::new();
    for file in fs::read_dir(Path::new(env!("CARGO_MANIFEST_DIR")).join("src")).expect("the sources") {
        let path = file.expect("a source").path();
        let module = path.file_stem().and_then(|stem| stem.to_str()).map(|stem| if stem == "lib" { "reactive_build" } else { stem });
        functions.extend(public_functions(module.expect("a name"), &fs::read_to_string(&path).expect("a text")));
    }
    let forgotten: Vec<&String> = functions.iter().filter(|name| !called(name)).collect();
    assert!(functions.len() >= 60 && forgotten.is_empty(), "{} public functions; not called in this file: {forgotten:?}", functions.len());
}
