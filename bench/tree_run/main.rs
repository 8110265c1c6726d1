// Time of the proved runner against a plain Rust runner that reads the rows into a tree with boxes and vectors and runs it by recursion, on runs of a
// million performed rows and more; and the smallest stack on which the smallest and the deepest tree are run. Build and run: bench/tree_run/run.
use std::hint::black_box;
use std::process::{Command, Stdio};

unsafe extern "C" {
    // A slice is passed as its pointer and its length.
    fn reactive_tree_run(
        tree: *const u32,
        tree_len: usize,
        answers: *const u32,
        answers_len: usize,
        performed: *mut u32,
        performed_len: usize,
        at: *mut u32,
        number: *mut usize,
        reason: *mut u32,
    ) -> u32;
    fn clock_gettime(clock: i32, time: *mut [i64; 2]) -> i32;
}

// What this thread has computed for, in seconds: a run takes milliseconds, and on a busy machine others take turns with it.
fn now() -> f64 {
    const CLOCK_THREAD_CPUTIME_ID: i32 = 3;
    let mut time = [0; 2];
    assert_eq!(unsafe { clock_gettime(CLOCK_THREAD_CPUTIME_ID, &mut time) }, 0);
    time[0] as f64 + time[1] as f64 / 1e9
}

fn proved(tree: &[u32], answers: &[u32], performed: &mut [u32]) -> (u32, u32, usize, u32) {
    let (mut at, mut number, mut reason) = (0, 0, 0);
    let (p, n) = (performed.as_mut_ptr(), performed.len());
    let (rows, asked) = (tree.as_ptr(), answers.as_ptr());
    let code = unsafe { reactive_tree_run(rows, tree.len(), asked, answers.len(), p, n, &mut at, &mut number, &mut reason) };
    (code, at, number, reason)
}

const NONE: u32 = 65535;

enum Value {
    Plain(u32),
    Other,
    Seq(Vec<Value>),
}

enum Statement {
    Instr(Value),
    If(u32, Vec<Statement>, Vec<Statement>),
    // the cases in source order
    Switch(u32, Vec<Vec<Statement>>),
    // label, before the first answer or none, before each later one, body
    Loop(u32, Option<Vec<Value>>, Vec<Value>, Vec<Statement>),
    Label(u32, Vec<Statement>),
    Stop(u32),
    Jump(bool, u32, usize, u32),
}

enum Part {
    Value(Value),
    Statement(Statement),
    Block(Vec<Statement>),
    Case(Vec<Statement>),
}

#[derive(Clone, Copy, PartialEq)]
enum Flow {
    Normal,
    Break(u32, usize),
    Continue(u32, usize),
    Stop(u32),
    Full,
}

// Rows that the check accepts, read into a tree.
fn read(tree: &[u32]) -> Vec<Statement> {
    fn value(stack: &mut Vec<Part>) -> Value {
        let Some(Part::Value(value)) = stack.pop() else { panic!() };
        value
    }
    fn block(stack: &mut Vec<Part>) -> Vec<Statement> {
        let Some(Part::Block(block)) = stack.pop() else { panic!() };
        block
    }
    let mut stack: Vec<Part> = Vec::new();
    for (at, row) in tree.chunks_exact(6).enumerate() {
        let [op, a, b, c, d] = [row[0], row[1], row[2], row[3], row[4]];
        let part = match op {
            1 => Part::Value(Value::Plain(a)),
            2 | 3 => Part::Value(Value::Other),
            4 => Part::Statement(Statement::Instr(value(&mut stack))),
            5 => {
                let last = value(&mut stack);
                let mut values: Vec<Value> = (0..a)
                    .map(|_| {
                        let Some(Part::Statement(Statement::Instr(value))) = stack.pop() else { panic!() };
                        value
                    })
                    .collect();
                values.reverse();
                values.push(last);
                Part::Value(Value::Seq(values))
            }
            9 => {
                let at = stack.len() - a as usize;
                let parts = stack.split_off(at).into_iter();
                Part::Block(
                    parts
                        .map(|part| {
                            let Part::Statement(statement) = part else { panic!() };
                            statement
                        })
                        .collect(),
                )
            }
            10 => {
                let alternate = if b == 0 { Vec::new() } else { block(&mut stack) };
                Part::Statement(Statement::If(d, block(&mut stack), alternate))
            }
            11 => Part::Case(block(&mut stack)),
            12 => {
                let cases = (0..b)
                    .map(|_| {
                        let Some(Part::Case(case)) = stack.pop() else { panic!() };
                        case
                    })
                    .collect();
                Part::Statement(Statement::Switch(d, cases))
            }
            13 => {
                let test = value(&mut stack);
                Part::Statement(Statement::Loop(b, None, vec![test], block(&mut stack)))
            }
            14 => {
                let body = block(&mut stack);
                Part::Statement(Statement::Loop(b, Some(Vec::new()), vec![value(&mut stack)], body))
            }
            15 => {
                let body = block(&mut stack);
                let update = (c == 1).then(|| value(&mut stack));
                let test = value(&mut stack);
                let init = value(&mut stack);
                Part::Statement(Statement::Loop(b, Some(vec![init]), update.into_iter().chain([test]).collect(), body))
            }
            18 => Part::Statement(Statement::Label(b, block(&mut stack))),
            20 | 21 => Part::Statement(Statement::Label(NONE, block(&mut stack))),
            22 => Part::Statement(Statement::Stop(1)),
            23 => Part::Statement(Statement::Stop(2)),
            24 | 25 => Part::Statement(Statement::Jump(op == 24, if c == 1 { a } else { NONE }, at, c)),
            _ => panic!(),
        };
        stack.push(part);
    }
    block(&mut stack)
}

struct Plain<'r> {
    answers: &'r [u32],
    asked: usize,
    performed: &'r mut [u32],
    number: usize,
}

impl Plain<'_> {
    fn value(&mut self, value: &Value) -> bool {
        match value {
            Value::Plain(row) => {
                if self.number == self.performed.len() {
                    return false;
                }
                self.performed[self.number] = *row;
                self.number += 1;
                true
            }
            Value::Other => true,
            Value::Seq(values) => values.iter().all(|value| self.value(value)),
        }
    }

    fn answer(&mut self) -> Option<u32> {
        let answer = self.answers.get(self.asked).copied();
        self.asked += 1;
        answer
    }

    fn block(&mut self, block: &[Statement]) -> Flow {
        for statement in block {
            let flow = self.statement(statement);
            if flow != Flow::Normal {
                return flow;
            }
        }
        Flow::Normal
    }

    fn statement(&mut self, statement: &Statement) -> Flow {
        match statement {
            Statement::Instr(value) => if self.value(value) { Flow::Normal } else { Flow::Full },
            Statement::If(label, consequent, alternate) => match self.answer() {
                None => Flow::Stop(4),
                Some(0) => labelled(self.block(alternate), *label),
                Some(_) => labelled(self.block(consequent), *label),
            },
            Statement::Switch(label, cases) => {
                let Some(place) = self.answer() else { return Flow::Stop(4) };
                let mut flow = Flow::Normal;
                for case in cases.iter().skip(place as usize) {
                    flow = self.block(case);
                    if flow != Flow::Normal {
                        break;
                    }
                }
                breakable(flow, *label)
            }
            Statement::Loop(label, first, again, body) => {
                let mut asks = first.is_some();
                if first.iter().flatten().any(|value| !self.value(value)) {
                    return Flow::Full;
                }
                let mut update = false;
                loop {
                    if asks {
                        let values = if update || first.is_none() { &again[..] } else { &again[again.len() - 1..] };
                        if values.iter().any(|value| !self.value(value)) {
                            return Flow::Full;
                        }
                        match self.answer() {
                            None => return Flow::Stop(4),
                            Some(0) => return Flow::Normal,
                            Some(_) => {}
                        }
                    }
                    match self.block(body) {
                        Flow::Normal => {}
                        Flow::Continue(target, _) if target == NONE || target == *label => {}
                        flow => return breakable(flow, *label),
                    }
                    (asks, update) = (true, true);
                }
            }
            Statement::Label(label, body) => labelled(self.block(body), *label),
            Statement::Stop(reason) => Flow::Stop(*reason),
            Statement::Jump(_, _, _, 0) => Flow::Normal,
            Statement::Jump(true, target, at, _) => Flow::Break(*target, *at),
            Statement::Jump(false, target, at, _) => Flow::Continue(*target, *at),
        }
    }
}

fn labelled(flow: Flow, label: u32) -> Flow {
    match flow {
        Flow::Break(target, _) if target != NONE && target == label => Flow::Normal,
        other => other,
    }
}

fn breakable(flow: Flow, label: u32) -> Flow {
    match labelled(flow, label) {
        Flow::Break(NONE, _) => Flow::Normal,
        other => other,
    }
}

#[inline(never)]
fn plain(tree: &[u32], answers: &[u32], performed: &mut [u32]) -> (u32, u32, usize, u32) {
    let root = read(tree);
    let mut runner = Plain { answers, asked: 0, performed, number: 0 };
    let flow = runner.block(&root);
    let number = runner.number;
    performed[number..].fill(0);
    match flow {
        Flow::Normal => (0, 0, number, 3),
        Flow::Stop(reason) => (0, 0, number, reason),
        Flow::Break(_, at) | Flow::Continue(_, at) => (63, at as u32, 0, 0),
        Flow::Full => (65, 0, 0, 0),
    }
}

fn rows(rows: &[[u32; 6]]) -> Vec<u32> {
    rows.as_flattened().to_vec()
}

fn plain_rows(count: u32) -> Vec<[u32; 6]> {
    (0..count).flat_map(|n| [[1, n, 0, 0, 0, 0], [4, 0, 0, 0, 0, 0]]).collect()
}

fn tables() -> Vec<(&'static str, Vec<u32>, Vec<u32>)> {
    let mut list = Vec::new();
    let again = |times: usize| [vec![1; times], vec![0]].concat();
    // WHILE with 1,000 instructions, 1,000 rounds
    let mut body = vec![[1, 0, 0, 0, 0, 0]];
    body.extend(plain_rows(1000));
    body.extend([[9, 1000, 0, 0, 0, 0], [14, 0, NONE, 0, 0, 0], [9, 1, 0, 0, 0, 0]]);
    list.push(("WHILE, 1,000 instructions", rows(&body), again(1000)));
    // 250 IFs in a WHILE, each with an instruction
    let mut body = vec![[2, 0, 0, 0, 0, 0]];
    for n in 0..250 {
        body.extend([[1, n, 0, 0, 0, 0], [4, 0, 0, 0, 0, 0], [9, 1, 0, 0, 0, 0], [10, 0, 0, 0, NONE, 0]]);
    }
    body.extend([[9, 250, 0, 0, 0, 0], [14, 0, NONE, 0, 0, 0], [9, 1, 0, 0, 0, 0]]);
    list.push(("250 IFs in a WHILE", rows(&body), again(4000 * 251)));
    // SWITCH of 400 cases that fall through, in a FOR with an update
    let mut body = vec![[1, 1, 0, 0, 0, 0], [1, 2, 0, 0, 0, 0], [1, 3, 0, 0, 0, 0]];
    for n in 0..400 {
        body.extend([[1, n, 0, 0, 0, 0], [4, 0, 0, 0, 0, 0], [9, 1, 0, 0, 0, 0], [11, 0, 0, 0, 0, 0]]);
    }
    body.extend([[12, 0, 400, 0, NONE, 0], [9, 1, 0, 0, 0, 0], [15, 0, NONE, 1, 0, 0], [9, 1, 0, 0, 0, 0]]);
    list.push(("SWITCH of 400 cases in a FOR", rows(&body), [1, 0].repeat(2500)));
    // DOWHILE in WHILE, a bare continue and a bare break
    let mut body = vec![[1, 7, 0, 0, 0, 0], [1, 8, 0, 0, 0, 0], [4, 0, 0, 0, 0, 0], [25, 1, 0, 2, 0, 0], [9, 2, 0, 0, 0, 0], [1, 9, 0, 0, 0, 0]];
    body.extend([[13, 0, 1, 0, 0, 0], [24, 0, 0, 0, 0, 0], [9, 2, 0, 0, 0, 0], [14, 0, 2, 0, 0, 0], [9, 1, 0, 0, 0, 0]]);
    list.push(("DOWHILE in a WHILE, continue", rows(&body), [1, 1, 1, 1, 0].repeat(120_000)));
    // WHILE around 1,000 LABELs, a PLAIN and a CONTINUE out of all: every round goes down and up
    list.push(("1,000 LABELs in a WHILE", deep(1000), again(1000)));
    list
}

fn deep(labels: u32) -> Vec<u32> {
    let mut body = vec![[1, 5, 0, 0, 0, 0], [1, 9, 0, 0, 0, 0], [4, 0, 0, 0, 0, 0], [25, 3, 0, 1, 0, 0], [9, 2, 0, 0, 0, 0]];
    for _ in 0..labels {
        body.extend([[18, 0, 4, 0, 0, 0], [9, 1, 0, 0, 0, 0]]);
    }
    body.extend([[14, 0, 3, 0, 0, 0], [9, 1, 0, 0, 0, 0]]);
    rows(&body)
}

fn least(times: usize, mut run: impl FnMut()) -> f64 {
    (0..times)
        .map(|_| {
            let start = now();
            run();
            now() - start
        })
        .fold(f64::MAX, f64::min)
}

fn measure() {
    println!("| Run | proved, ns a row | plain Rust, ns a row | times |\n|---|---|---|---|");
    let mut buffer = vec![0; 4_000_000];
    let mut other = vec![0; 4_000_000];
    for (name, tree, answers) in tables() {
        let a = proved(&tree, &answers, &mut buffer);
        let b = plain(&tree, &answers, &mut other);
        assert_eq!((a, &buffer), (b, &other), "{name}");
        let lent = a.2;
        let ours = least(40, || {
            black_box(proved(black_box(&tree), black_box(&answers), &mut buffer[..lent]));
        });
        let theirs = least(40, || {
            black_box(plain(black_box(&tree), black_box(&answers), &mut other[..lent]));
        });
        let each = |time: f64| time * 1e9 / lent as f64;
        println!("| {name} | {:.1} | {:.1} | {:.2} |", each(ours), each(theirs), ours / theirs);
    }
}

/// Trees for the stack: the smallest one, and LABELs in one another, the deepest.
fn shape(name: &str) -> Vec<u32> {
    if name == "one" { rows(&[[9, 0, 0, 0, 0, 0]]) } else { deep(1020) }
}

/// Runs the tree on a thread with this stack; the process ends by a signal where that is not enough.
fn probe(name: &str, kilobytes: usize) {
    let tree = shape(name);
    let run = move || proved(&tree, &[1, 1, 0], &mut [0; 16]);
    let ran = std::thread::Builder::new().stack_size(kilobytes << 10).spawn(run).expect("a thread").join();
    assert_eq!(ran.expect("a run").0, 0);
}

/// The smallest stack on which the tree is run, in steps of 4 KB: each in a process of its own, since a thread is given the stack of one that has
/// ended where that is large enough.
fn stack(name: &str) -> usize {
    let program = std::env::current_exe().expect("its own name");
    let enough = |kilobytes: &usize| {
        let mut probe = Command::new(&program);
        probe.args(["stack", name, &kilobytes.to_string()]).stderr(Stdio::null());
        probe.status().expect("a process").success()
    };
    (16..512).step_by(4).find(enough).expect("512 KB are enough")
}

fn main() {
    let words: Vec<String> = std::env::args().collect();
    if let [_, verb, name, kilobytes] = &words[..] {
        assert_eq!(verb, "stack");
        return probe(name, kilobytes.parse().expect("a number of KB"));
    }
    // the plain runner goes down by recursion
    if words.len() == 1 {
        std::thread::Builder::new().stack_size(256 << 20).spawn(measure).unwrap().join().unwrap();
        return;
    }
    println!("Stack of a thread that runs a tree: {} KB for one row, {} KB for 1,020 nested LABELs", stack("one"), stack("labels"));
}
