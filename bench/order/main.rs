// Time of the proved rearrangement against a plain Rust program with a queue, over the same words, on tables of 1,024 blocks with 4,096
// lines and of sizes below that; and of the inverse. Build and run: bench/order/run (see there).
use std::collections::VecDeque;
use std::hint::black_box;
use std::time::Instant;

unsafe extern "C" {
    // A slice is passed as its pointer and its length.
    fn reactive_blocks_rearrange(
        words: *const u32, len: usize, new: *mut u32, new_len: usize, old: *mut u32, old_len: usize, at: *mut u32,
    ) -> u32;
    fn reactive_blocks_restore(
        words: *const u32, len: usize, old: *const u32, old_len: usize, first: *mut u32, first_len: usize, at: *mut u32,
    ) -> u32;
}

fn rearrange(words: &[u32], new_words: &mut [u32], old_numbers: &mut [u32]) -> u32 {
    let mut at = 0;
    let (new, old) = (new_words.as_mut_ptr(), old_numbers.as_mut_ptr());
    unsafe { reactive_blocks_rearrange(words.as_ptr(), words.len(), new, new_words.len(), old, old_numbers.len(), &mut at) }
}

fn restore(words: &[u32], old_numbers: &[u32], first_words: &mut [u32]) -> u32 {
    let mut at = 0;
    let (old, first) = (old_numbers.as_ptr(), first_words.as_mut_ptr());
    unsafe { reactive_blocks_restore(words.as_ptr(), words.len(), old, old_numbers.len(), first, first_words.len(), &mut at) }
}

const BLOCK: usize = 11;
const INSTRUCTION: usize = 7;
const NONE: u32 = 65_535;

// The columns of a row that name a block, by its code, from column 3 on.
fn columns(code: u32) -> &'static [usize] {
    match code {
        4 | 18 => &[3],
        5 => &[4, 5, 6],
        6 | 13 | 15 => &[4, 5],
        7 => &[6],
        8 | 9 | 12 | 19 => &[3, 4, 5],
        10 => &[3, 4, 5, 6, 7],
        11 => &[3, 4, 5, 6],
        14 | 16 | 17 | 20 | 21 => &[3, 4],
        _ => &[],
    }
}

// What a plain engineer would write, for words that are a table.
#[inline(never)]
fn plain(words: &[u32]) -> (Vec<u32>, Vec<u32>) {
    let blocks = words[1] as usize;
    let cases = 6 + blocks * BLOCK + words[2] as usize * INSTRUCTION;
    let row = |block: u32| &words[6 + block as usize * BLOCK..][..BLOCK];
    let mut new = vec![None; blocks];
    let mut order = Vec::with_capacity(blocks);
    let mut queue = VecDeque::from([words[0]]);
    new[words[0] as usize] = Some(0);
    order.push(words[0]);
    while let Some(block) = queue.pop_front() {
        let row = row(block);
        let mut name = |to: u32| {
            if to != NONE && new[to as usize].is_none() {
                new[to as usize] = Some(order.len() as u32);
                order.push(to);
                queue.push_back(to);
            }
        };
        if row[2] == 7 {
            (row[4]..row[4] + row[5]).for_each(|case| name(words[cases + case as usize * 2 + 1]));
        }
        columns(row[2]).iter().for_each(|column| name(row[*column]));
    }
    for block in 0..blocks as u32 {
        if new[block as usize].is_none() {
            new[block as usize] = Some(order.len() as u32);
            order.push(block);
        }
    }
    let name = |to: &mut u32| *to = if *to == NONE { NONE } else { new[*to as usize].unwrap() };
    let mut result = words.to_vec();
    name(&mut result[0]);
    for (place, old) in order.iter().enumerate() {
        let at = 6 + place * BLOCK;
        result[at..at + BLOCK].copy_from_slice(row(*old));
        let code = result[at + 2];
        columns(code).iter().for_each(|column| name(&mut result[at + *column]));
    }
    for case in 0..words[3] as usize {
        name(&mut result[cases + case * 2 + 1]);
    }
    (result, order)
}

struct Rng(u64);

impl Rng {
    fn below(&mut self, n: u32) -> u32 {
        self.0 = self.0.wrapping_mul(6364136223846793005).wrapping_add(1442695040888963407);
        ((self.0 >> 33) as u32) % n
    }
}

// ForOf rows alone, four lines each, to random blocks; or a mix of codes. An instruction for each block.
fn table(blocks: u32, mixed: bool, rng: &mut Rng) -> Vec<u32> {
    let mut words = vec![rng.below(blocks), blocks, blocks, blocks, 1, 1];
    for block in 0..blocks {
        let mut row = [0; BLOCK];
        row[0] = block;
        row[1] = 1;
        row[2] = if mixed { [4, 5, 6, 7, 8, 9, 10, 11, 13, 14, 16, 19, 20][rng.below(13) as usize] } else { 11 };
        for column in columns(row[2]) {
            row[*column] = rng.below(blocks);
        }
        if row[2] == 7 {
            row[4] = rng.below(blocks - 5);
            row[5] = rng.below(6);
        }
        row[8] = block;
        words.extend(row);
    }
    for instruction in 0..blocks {
        words.extend([instruction, 0, 0, 0, 0, 0, 0]);
    }
    for _ in 0..blocks {
        words.extend([NONE, rng.below(blocks)]);
    }
    words.extend([0, 1]);
    words
}

// The least of some runs, in microseconds.
fn least(mut run: impl FnMut()) -> f64 {
    (0..2_000)
        .map(|_| {
            let start = Instant::now();
            run();
            start.elapsed().as_secs_f64() * 1e6
        })
        .fold(f64::INFINITY, f64::min)
}

fn measure(what: &str, words: &[u32]) {
    let (mut new_words, mut old_numbers) = (vec![7; words.len()], vec![7; words[1] as usize]);
    assert_eq!(rearrange(words, &mut new_words, &mut old_numbers), 0);
    assert!(plain(words) == (new_words.clone(), old_numbers.clone()));
    let mut first = vec![7; words.len()];
    assert_eq!(restore(&new_words, &old_numbers, &mut first), 0);
    assert!(first == words);

    let a = least(|| _ = black_box(rearrange(black_box(words), &mut new_words, &mut old_numbers)));
    let b = least(|| _ = black_box(plain(black_box(words))));
    let c = least(|| _ = black_box(restore(black_box(&new_words), &old_numbers, &mut first)));
    println!("| {} blocks, {what} | {a:.1} | {b:.1} | {:.2} | {c:.1} |", words[1], a / b);
}

fn main() {
    println!("| Table | proved, µs | plain Rust, µs | times | the inverse, µs |\n|---|---|---|---|---|");
    let mut rng = Rng(7);
    for blocks in [128, 256, 512, 1_024] {
        measure("four lines a block", &table(blocks, false, &mut rng));
    }
    measure("all codes", &table(1_024, true, &mut rng));
    // The widest: 1,024 Switches over all 1,024 case rows.
    let mut wide = table(1_024, false, &mut rng);
    for block in 0..1_024 {
        let at = 6 + block * BLOCK;
        (wide[at + 2], wide[at + 3], wide[at + 4], wide[at + 5]) = (7, 0, 0, 1_024);
    }
    measure("1,025 lines a block", &wide);
}
