// Time of the proved check of trees against a plain Rust loop with a Vec that does the same, on lists of 2,048 rows, and whether 32 KB of stack are enough.
// Build and run: bench/tree_check/run (see there).
use std::hint::black_box;
use std::time::Instant;

unsafe extern "C" {
    // A slice is passed as its pointer and its length.
    fn reactive_tree_check(tree: *const u32, len: usize, at: *mut u32) -> u32;
}

fn proved(tree: &[u32]) -> (u32, u32) {
    let mut at = 0;
    let code = unsafe { reactive_tree_check(tree.as_ptr(), tree.len(), &mut at) };
    (code, at)
}

const NONE: u32 = 65535;
const ROWS: usize = 2048;

#[derive(Clone, Copy, PartialEq)]
enum Sort {
    Value,
    Instr,
    Statement,
    Block,
    Case,
}

// What a plain engineer would write: the sorts of the parts that are not yet taken on a Vec, row by row.
#[inline(never)]
fn plain(tree: &[u32]) -> (u32, u32) {
    if tree.is_empty() || tree.len() % 6 != 0 || tree.len() > ROWS * 6 {
        return (62, 0);
    }
    let mut stack: Vec<Sort> = Vec::new();
    for (at, row) in tree.chunks_exact(6).enumerate() {
        if !in_range(row) {
            return (60, at as u32);
        }
        if !close(row, &mut stack) {
            return (61, at as u32);
        }
    }
    if stack == [Sort::Block] { (0, 0) } else { (62, 0) }
}

fn in_range(row: &[u32]) -> bool {
    let [a, b, c, d, e] = [row[1], row[2], row[3], row[4], row[5]];
    let label = |w: u32| w < 1024 || w == NONE;
    let place = |w: u32| w < 4096;
    let free = |w: u32| w <= NONE;
    let count = |w: u32| w < 2048;
    let fits = match row[0] {
        1 | 2 => place(a) && b == 0 && c == 0 && d == 0,
        3 => free(a) && free(b) && c == 0 && d == 0,
        20 | 21 => free(a) && b == 0 && c == 0 && d == 0,
        4 => free(a) && place(b) && free(c) && free(d),
        5 => count(a) && free(b) && c == 0 && d == 0,
        6 => a <= 2 && b == 0 && c == 0 && d == 0,
        7 => a == 0 && b == 0 && c == 0 && d == 0,
        8 => a <= 1 && b == 0 && c == 0 && d == 0,
        9 => count(a) && b == 0 && c == 0 && d == 0,
        10 => place(a) && b <= 1 && free(c) && label(d),
        11 => (place(a) || a == NONE) && b == 0 && c == 0 && d == 0,
        12 => place(a) && count(b) && free(c) && label(d),
        13 | 14 | 18 => free(a) && label(b) && c == 0 && d == 0,
        15 => free(a) && label(b) && c <= 1 && d == 0,
        16 | 17 => free(a) && label(b) && free(c) && free(d),
        19 => free(a) && label(b) && (place(c) || c == NONE) && d == 0,
        22 | 23 => place(a) && free(b) && c == 0 && d == 0,
        24 | 25 => a < 1024 && free(b) && c <= 2 && d <= 128,
        _ => return false,
    };
    fits && e == 0
}

fn take(stack: &mut Vec<Sort>, wanted: Sort, count: u32) -> bool {
    for _ in 0..count {
        match stack.pop() {
            Some(found) if found == wanted || (wanted == Sort::Statement && found == Sort::Instr) => {}
            _ => return false,
        }
    }
    true
}

fn close(row: &[u32], stack: &mut Vec<Sort>) -> bool {
    use Sort::*;
    let [a, b, c] = [row[1], row[2], row[3]];
    let (found, made) = match row[0] {
        4 => (take(stack, Value, 1), Instr),
        5 => (take(stack, Value, 1) && take(stack, Instr, a), Value),
        6 => (take(stack, Value, 2), Value),
        7 => (take(stack, Value, 3), Value),
        8 => (take(stack, Value, 1), Value),
        9 => (take(stack, Statement, a), Block),
        10 => (take(stack, Block, 1 + b), Statement),
        11 => (take(stack, Block, 1), Case),
        12 => (take(stack, Case, b), Statement),
        13 => (take(stack, Value, 1) && take(stack, Block, 1), Statement),
        14 | 17 => (take(stack, Block, 1) && take(stack, Value, 1), Statement),
        15 => (take(stack, Block, 1) && take(stack, Value, 2 + c), Statement),
        16 => (take(stack, Block, 1) && take(stack, Value, 2), Statement),
        18 | 20 | 21 => (take(stack, Block, 1), Statement),
        19 => (take(stack, Block, 2), Statement),
        1..=3 => (true, Value),
        _ => (true, Statement),
    };
    stack.push(made);
    found
}

fn repeated(rows: &[[u32; 6]], times: usize) -> Vec<u32> {
    rows.as_flattened().repeat(times)
}

// Lists of 2,048 rows, or just under it.
fn lists() -> Vec<(&'static str, Vec<u32>)> {
    let block = |count: u32| [9, count, 0, 0, 0, 0];
    let instruction = [[1, 5, 0, 0, 0, 0], [4, 7, 3, 0, 0, 0]];
    let wide = [repeated(&[[22, 0, 7, 0, 0, 0]], 2047), block(2047).to_vec()].concat();
    let instructions = [repeated(&instruction, 1023), block(1023).to_vec()].concat();
    let ifs = {
        let one = [instruction[0], instruction[1], block(1), instruction[0], instruction[1], block(1), [10, 2, 1, 9, 3, 0]];
        [repeated(&one, 292), block(292).to_vec()].concat()
    };
    let labels = {
        let mut tree = block(0).to_vec();
        (0..1023).for_each(|_| tree.extend([[18, 4, 3, 0, 0, 0], block(1)].as_flattened()));
        tree
    };
    let loops = {
        let one = [[2, 1, 0, 0, 0, 0], [25, 3, 4, 0, 0, 0], block(1), [14, 6, 3, 0, 0, 0]];
        [repeated(&one, 511), block(511).to_vec()].concat()
    };
    let switch = {
        let one = [[24, 3, 4, 0, 0, 0], block(1), [11, 8, 0, 0, 0, 0]];
        [repeated(&one, 682), vec![12, 1, 682, 3, NONE, 0], block(1).to_vec()].concat()
    };
    vec![("2,047 RETURNs", wide), ("INSTRs", instructions), ("IFs with alternates", ifs), ("1,023 LABELs, nested", labels), ("WHILEs", loops), ("a SWITCH of 682 cases", switch)]
}

fn nanoseconds(check: fn(&[u32]) -> (u32, u32), tree: &[u32]) -> f64 {
    let mut least = f64::MAX;
    for _ in 0..200 {
        let start = Instant::now();
        for _ in 0..20 {
            black_box(check(black_box(tree)));
        }
        least = least.min(start.elapsed().as_nanos() as f64 / 20.0);
    }
    least
}

// Whether a thread with so small a stack can make the call: it has the thread's own start on it too.
fn fits_in(bytes: usize, tree: &[u32]) -> bool {
    let tree = tree.to_vec();
    let thread = std::thread::Builder::new().stack_size(bytes).spawn(move || proved(&tree));
    thread.expect("a thread").join().expect("its answer") == (0, 0)
}

fn main() {
    println!("| List | proved, µs | plain Rust, µs | times |");
    println!("|---|---|---|---|");
    for (name, tree) in &lists() {
        assert_eq!(plain(tree), (0, 0), "{name}");
        assert_eq!(proved(tree), (0, 0), "{name}");
        let (ours, theirs) = (nanoseconds(proved, tree), nanoseconds(plain, tree));
        println!("| {name} | {:.1} | {:.1} | {:.2} |", ours / 1000.0, theirs / 1000.0, ours / theirs);
    }
    assert!(lists().iter().all(|(_, tree)| fits_in(32 * 1024, tree)));
}
