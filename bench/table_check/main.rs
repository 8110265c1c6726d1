// Time of the proved check against a plain Rust loop with the same tests, on the largest table that the limits allow.
// Build and run: bench/table_check/run (see there).
use std::hint::black_box;
use std::time::Instant;

unsafe extern "C" {
    // A slice is passed as its pointer and its length.
    fn reactive_table_check(words: *const u32, len: usize, at: *mut u32) -> u32;
}

fn proved(words: &[u32]) -> (u32, u32) {
    let mut at = 0;
    let code = unsafe { reactive_table_check(words.as_ptr(), words.len(), &mut at) };
    (code, at)
}

const NONE: u32 = 65535;
const BLOCK_WORDS: usize = 11;
const INSTRUCTION_WORDS: usize = 7;
const LIMITS: [u32; 5] = [1024, 4096, 1024, 4096, 4096];

// What a plain engineer would write: refusals 1 to 4 of paper 01.
#[inline(never)]
fn plain(words: &[u32]) -> (u32, u32) {
    if words.len() < 6 {
        return (1, 0);
    }
    for (i, limit) in LIMITS.iter().enumerate() {
        if words[i + 1] > *limit {
            return (2, i as u32 + 1);
        }
    }
    let [entry, blocks, instructions, cases, places, identifiers] = [words[0], words[1], words[2], words[3], words[4], words[5]];
    let begin = [6, blocks * BLOCK_WORDS as u32, instructions * INSTRUCTION_WORDS as u32, cases * 2, places, identifiers];
    if words.len() as u64 != begin.iter().map(|n| *n as u64).sum::<u64>() {
        return (1, 0);
    }
    if entry >= blocks {
        return (3, 0);
    }
    let mut at = 6usize;
    let place = |w: u32| w < places;
    let block = |w: u32| w < blocks;
    for row in words[at..at + blocks as usize * BLOCK_WORDS].chunks_exact(BLOCK_WORDS) {
        if let Some(column) = bad_block(row, blocks, instructions, cases, places) {
            return (4, (at + column) as u32);
        }
        at += BLOCK_WORDS;
    }
    for row in words[at..at + instructions as usize * INSTRUCTION_WORDS].chunks_exact(INSTRUCTION_WORDS) {
        if row[0] > 65535 {
            return (4, at as u32);
        }
        if !place(row[1]) {
            return (4, at as u32 + 1);
        }
        let (p, q) = match row[2] {
            0 => (row[3] == 0, row[4] == 0),
            1 => (place(row[3]), row[4] == 0),
            2 => (place(row[3]), place(row[4])),
            _ => return (4, at as u32 + 2),
        };
        if !p {
            return (4, at as u32 + 3);
        }
        if !q {
            return (4, at as u32 + 4);
        }
        if row[5] > 65535 {
            return (4, at as u32 + 5);
        }
        if row[6] < row[5] || row[6] > 65535 {
            return (4, at as u32 + 6);
        }
        at += INSTRUCTION_WORDS;
    }
    for row in words[at..at + cases as usize * 2].chunks_exact(2) {
        if row[0] != NONE && !place(row[0]) {
            return (4, at as u32);
        }
        if !block(row[1]) {
            return (4, at as u32 + 1);
        }
        at += 2;
    }
    for w in &words[at..at + places as usize] {
        if *w >= identifiers {
            return (4, at as u32);
        }
        at += 1;
    }
    for w in &words[at..at + identifiers as usize] {
        if *w > 1 {
            return (4, at as u32);
        }
        at += 1;
    }
    (0, 0)
}

fn bad_block(row: &[u32], blocks: u32, instructions: u32, cases: u32, places: u32) -> Option<usize> {
    let code = row[2];
    if code == 0 {
        return row.iter().position(|w| *w != 0);
    }
    if row[0] > 65535 {
        return Some(0);
    }
    if row[1] > instructions || row[0] > instructions - row[1] {
        return Some(1);
    }
    let place = |w: u32| w < places;
    let block = |w: u32| w < blocks;
    let [a, b, c, d, e] = [row[3], row[4], row[5], row[6], row[7]];
    let fits = match code {
        1 => [a == 0, b == 0, c == 0, d == 0, e == 0],
        2 | 3 => [place(a), b == 0, c == 0, d == 0, e == 0],
        4 => [block(a), b <= 2, c == 0, d == 0, e == 0],
        5 => [place(a), block(b), block(c), block(d), e == 0],
        6 => [place(a), block(b), block(c), d == 0, e == 0],
        7 => [place(a), b <= 65535, c <= cases && b <= cases - c, block(d), e == 0],
        8 | 9 | 12 => [block(a), block(b), block(c), d == 0, e == 0],
        10 => [block(a), block(b), c == NONE || block(c), block(d), block(e)],
        11 => [block(a), block(b), block(c), block(d), e == 0],
        13 => [a <= 2, block(b), block(c), d == 0, e == 0],
        14 | 16 | 17 => [block(a), block(b), c == 0, d == 0, e == 0],
        15 => [a <= 1, block(b), block(c), d == 0, e == 0],
        18 => [block(a), b == 0, c == 0, d == 0, e == 0],
        19 => [block(a), block(b), block(c), d == NONE || place(d), e == 0],
        20 | 21 => [block(a), block(b), c <= 65535, d == 0, e == 0],
        _ => return Some(2),
    };
    if let Some(k) = fits.iter().position(|fit| !fit) {
        return Some(3 + k);
    }
    if row[8] > 65535 {
        return Some(8);
    }
    if row[9] > 65535 {
        return Some(9);
    }
    if row[10] < row[9] || row[10] > 65535 {
        return Some(10);
    }
    None
}

// A generator of numbers that are the same in every run.
struct Numbers(u64);

impl Numbers {
    fn below(&mut self, n: u32) -> u32 {
        self.0 ^= self.0 << 13;
        self.0 ^= self.0 >> 7;
        self.0 ^= self.0 << 17;
        ((self.0 >> 32) % n as u64) as u32
    }
}

// An accepted table at every limit, its codes in no order.
fn largest(n: &mut Numbers) -> Vec<u32> {
    let mut words = vec![n.below(1024), 1024, 4096, 1024, 4096, 4096];
    for _ in 0..1024 {
        let first = n.below(4000);
        let code = n.below(22);
        let mut b = || n.below(1024);
        let blocks = [b(), b(), b(), b(), b()];
        let p = n.below(4096);
        let row = match code {
            0 => [0; 5],
            1 => [0; 5],
            2 | 3 => [p, 0, 0, 0, 0],
            4 => [blocks[0], n.below(3), 0, 0, 0],
            5 => [p, blocks[1], blocks[2], blocks[3], 0],
            6 => [p, blocks[1], blocks[2], 0, 0],
            7 => [p, n.below(1000), n.below(24), blocks[3], 0],
            8 | 9 | 12 => [blocks[0], blocks[1], blocks[2], 0, 0],
            10 => [blocks[0], blocks[1], if n.below(2) == 0 { NONE } else { blocks[2] }, blocks[3], blocks[4]],
            11 => [blocks[0], blocks[1], blocks[2], blocks[3], 0],
            13 => [n.below(3), blocks[1], blocks[2], 0, 0],
            14 | 16 | 17 => [blocks[0], blocks[1], 0, 0, 0],
            15 => [n.below(2), blocks[1], blocks[2], 0, 0],
            18 => [blocks[0], 0, 0, 0, 0],
            19 => [blocks[0], blocks[1], blocks[2], if n.below(2) == 0 { NONE } else { p }, 0],
            _ => [blocks[0], blocks[1], n.below(65536), 0, 0],
        };
        if code == 0 {
            words.extend([0; BLOCK_WORDS]);
        } else {
            words.extend([first, n.below(96), code]);
            words.extend(row);
            let from = n.below(65536);
            words.extend([n.below(65536), from, from + n.below(65536 - from)]);
        }
    }
    for _ in 0..4096 {
        let code = n.below(3);
        let p = if code == 0 { 0 } else { n.below(4096) };
        let q = if code == 2 { n.below(4096) } else { 0 };
        let from = n.below(65536);
        words.extend([n.below(65536), n.below(4096), code, p, q, from, from + n.below(65536 - from)]);
    }
    for _ in 0..1024 {
        let test = if n.below(4) == 0 { NONE } else { n.below(4096) };
        words.extend([test, n.below(1024)]);
    }
    for _ in 0..4096 {
        words.push(n.below(4096));
    }
    for _ in 0..4096 {
        words.push(n.below(2));
    }
    words
}

// Microseconds of one call: the least of many rounds.
fn time(check: fn(&[u32]) -> (u32, u32), words: &[u32]) -> f64 {
    let calls = 200;
    let start = Instant::now();
    for _ in 0..calls {
        black_box(check(black_box(words)));
    }
    start.elapsed().as_secs_f64() * 1e6 / calls as f64
}

fn main() {
    let mut numbers = Numbers(0x9e3779b97f4a7c15);
    let words = largest(&mut numbers);
    assert_eq!(plain(&words), (0, 0));
    assert_eq!(proved(&words), (0, 0));
    // and they agree where a word is spoilt
    for _ in 0..20000 {
        let mut bad = words.clone();
        let at = numbers.below(words.len() as u32) as usize;
        bad[at] = [0, 1, 2, 3, 22, 1023, 1024, 4095, 4096, 65535, 65536, u32::MAX][numbers.below(12) as usize];
        assert_eq!(plain(&bad), proved(&bad), "word {at}");
    }
    let (mut ours, mut theirs) = (f64::MAX, f64::MAX);
    for _ in 0..40 {
        ours = ours.min(time(proved, &words));
        theirs = theirs.min(time(plain, &words));
    }
    println!("| Table | proved, µs | plain Rust, µs | times |\n|---|---|---|---|");
    println!("| the largest, {} words | {ours:.1} | {theirs:.1} | {:.2} |", words.len(), ours / theirs);
}
