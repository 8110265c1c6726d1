//! The smallest stack on which a table of depth 128 is built, by statements and by values of every shape: a thread with that stack, in
//! a process of its own.

use std::process::{Command, Stdio};
use std::thread;

use comparison::rng::Rng;

use crate::tables;

const STEP: usize = 4_096;

/// A way in which a value visit makes another, one deeper: the part of its terminal that is visited.
const WAYS: [&str; 14] = [
    "Sequence block",
    "Sequence fallthrough",
    "Logical test",
    "Logical left",
    "Logical right",
    "Logical fallthrough",
    "Ternary test",
    "Ternary consequent",
    "Ternary alternate",
    "Optional test",
    "Optional value",
    "Optional fallthrough",
    "MaybeThrow",
    "Ternary fallthrough",
];

/// A statement whose value is visited first.
const STATEMENTS: [&str; 7] = ["Sequence", "While test", "DoWhile test", "For init", "For update", "ForOf test", "ForIn init"];

/// Values in one another to depth 128: a statement, and ways that follow one another in a circle.
#[derive(Clone)]
struct Shape {
    statement: usize,
    ways: Vec<usize>,
}

impl Shape {
    fn name(&self) -> String {
        let ways: Vec<&str> = self.ways.iter().map(|way| WAYS[*way]).collect();
        format!("{} in a {}", ways.join(", "), STATEMENTS[self.statement])
    }

    fn word(&self) -> String {
        [self.statement].iter().chain(&self.ways).map(usize::to_string).collect::<Vec<_>>().join(",")
    }

    fn of(word: &str) -> Self {
        let numbers: Vec<usize> = word.split(',').map(|number| number.parse().expect("a number")).collect();
        Self { statement: numbers[0], ways: numbers[1..].to_vec() }
    }

    /// The values go round for ever: the table is refused 30 at the 129th visit.
    fn words(&self) -> Vec<u32> {
        let mut table = tables::Table::new(1);
        let end = table.add(3, &[0]);
        let leaf = table.add(4, &[end, 0]);
        let fallthrough = table.add(4, &[end, 0]);
        let body = table.add(4, &[end, 0]);
        let test = table.add(6, &[0, body, end]);
        let first = table.rows();
        for (at, way) in self.ways.iter().enumerate() {
            // Two rows for each way: the value block, and the Branch that ends its test.
            let next = first + 2 * ((at as u32 + 1) % self.ways.len() as u32);
            let branch = first + 2 * at as u32 + 1;
            let (code, operands) = match way {
                0 => (17, vec![next, fallthrough]),
                1 => (17, vec![leaf, next]),
                2 => (13, vec![0, next, fallthrough]),
                3 | 4 => (13, vec![0, branch, fallthrough]),
                5 => (13, vec![0, branch, next]),
                6 => (14, vec![next, fallthrough]),
                7 | 8 => (14, vec![branch, fallthrough]),
                9 => (15, vec![0, next, fallthrough]),
                10 => (15, vec![0, branch, fallthrough]),
                11 => (15, vec![0, branch, next]),
                12 => (18, vec![next]),
                _ => (14, vec![branch, next]),
            };
            table.add(code, &operands);
            let (consequent, alternate) = match way {
                3 | 7 | 10 => (next, leaf),
                4 | 8 => (leaf, next),
                _ => (leaf, leaf),
            };
            table.add(6, &[0, consequent, alternate]);
        }
        let none = 65_535;
        table.entry = match self.statement {
            0 => table.add(17, &[first, end]),
            1 => table.add(9, &[first, body, end]),
            2 => table.add(8, &[body, first, end]),
            3 => table.add(10, &[first, test, none, body, end]),
            4 => table.add(10, &[leaf, test, first, body, end]),
            5 => table.add(11, &[leaf, first, body, end]),
            _ => table.add(12, &[first, body, end]),
        };
        table.case("values").words
    }
}

/// Builds the table on a thread with this stack.
pub fn probe(shape: &str, bytes: usize) {
    let (words, expected) = if shape == "statements" { (tables::deep_statements().words, 0) } else { (Shape::of(shape).words(), 30) };
    let (mut lent, mut index) = (vec![7; 6_000], vec![7; 3_069]);
    let build = move || reactive_build::build(&words, &mut lent, &mut index).code;
    let code = thread::Builder::new().stack_size(bytes).spawn(build).expect("a thread").join();
    assert_eq!(code.expect("it ends"), expected, "{shape}");
}

/// Whether the build of this shape ends on such a stack.
fn ends(shape: &str, bytes: usize) -> bool {
    let program = std::env::current_exe().expect("this program");
    let mut probe = Command::new(program);
    probe.args(["probe", shape, &bytes.to_string()]).stderr(Stdio::null());
    probe.status().expect("started").success()
}

fn least(shape: &str) -> usize {
    let (mut short, mut enough) = (0, 1 << 20);
    assert!(ends(shape, enough), "{shape}: 1 MB is enough, and the answer is the expected one");
    while enough - short > STEP {
        let middle = (short + enough) / 2 / STEP * STEP;
        if ends(shape, middle) { enough = middle } else { short = middle }
    }
    enough
}

/// One circle's ways in every statement and order that could matter: each way alone, each two, and some longer ones by chance.
fn shapes() -> Vec<Shape> {
    let mut shapes: Vec<Shape> = (0..WAYS.len()).map(|way| Shape { statement: 0, ways: vec![way] }).collect();
    for one in 0..WAYS.len() {
        for other in 0..one {
            shapes.push(Shape { statement: 0, ways: vec![one, other] });
        }
    }
    let mut rng = Rng::new(1);
    for _ in 0..100 {
        let length = 3 + rng.below(5) as usize;
        let ways = (0..length).map(|_| rng.below(WAYS.len() as u32) as usize).collect();
        shapes.push(Shape { statement: 0, ways });
    }
    shapes
}

pub fn print() {
    println!("  by statements: {} KB", least("statements") / 1_024);
    let mut number = 0;
    let (mut most, mut worst) = (0, None);
    let mut look = |shape: Shape, alone: bool| {
        number += 1;
        // A shape that ends on the worst stack so far is not worse.
        if !alone && ends(&shape.word(), most) {
            return;
        }
        let bytes = least(&shape.word());
        if alone {
            println!("  by values, {}: {} KB", shape.name(), bytes / 1_024);
        }
        if bytes > most {
            (most, worst) = (bytes, Some(shape));
        }
    };
    for shape in shapes() {
        let alone = shape.ways.len() == 1;
        look(shape, alone);
    }
    for statement in 1..STATEMENTS.len() {
        for way in 0..WAYS.len() {
            look(Shape { statement, ways: vec![way] }, false);
        }
    }
    let worst = worst.expect("there are shapes").name();
    println!("  the worst: {worst}");
    println!("Stack of a thread that builds: {} KB, the most of {number} shapes at depth 128", most / 1_024);
}
