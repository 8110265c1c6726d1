// Time of the proved lookup (M-101) against a plain Rust loop that does the same, in 2,048 lines: the label in the last line, in the middle, in none.
// Build and run: bench/lookup/run (see there).
use std::hint::black_box;
use std::time::Instant;

unsafe extern "C" {
    // A slice is passed as its pointer and its length.
    fn reactive_tree_lookup(
        index: *const u32, index_len: usize, lines: u32, label: u32, tree: *const u32, tree_len: usize, at: *mut u32, begin: *mut usize,
        end: *mut usize,
    ) -> u32;
}

type Answer = (u32, usize, usize);

fn proved(index: &[u32], lines: u32, label: u32, tree: &[u32]) -> Answer {
    let (mut at, mut begin, mut end) = (0, 0, 0);
    let (words, rows) = (index.as_ptr(), tree.as_ptr());
    let code = unsafe { reactive_tree_lookup(words, index.len(), lines, label, rows, tree.len(), &mut at, &mut begin, &mut end) };
    (code, begin, end)
}

// What a plain engineer would write.
#[inline(never)]
fn plain(index: &[u32], lines: u32, label: u32, tree: &[u32]) -> Answer {
    for line in index.chunks_exact(3).take(lines as usize) {
        if line[0] == label {
            let (first, closing) = (line[1] as usize, line[2] as usize);
            if first > closing || closing >= tree.len() / 6 {
                return (43, 0, 0);
            }
            return (0, first * 6, (closing + 1) * 6);
        }
    }
    (42, 0, 0)
}

const LINES: u32 = 2048;

fn nanoseconds(lookup: fn(&[u32], u32, u32, &[u32]) -> Answer, index: &[u32], label: u32, tree: &[u32]) -> f64 {
    let mut least = f64::MAX;
    for _ in 0..200 {
        let start = Instant::now();
        for _ in 0..100 {
            black_box(lookup(black_box(index), LINES, black_box(label), tree));
        }
        least = least.min(start.elapsed().as_nanos() as f64 / 100.0);
    }
    least
}

fn main() {
    let index: Vec<u32> = (0..LINES).flat_map(|line| [line + 1, line, line]).collect();
    let tree = vec![0; LINES as usize * 6];
    println!("| Label in | proved, ns | plain Rust, ns | times |");
    println!("|---|---|---|---|");
    for (name, label) in [("the last of 2,048 lines", LINES), ("none of them", 0), ("the first", 1)] {
        assert_eq!(proved(&index, LINES, label, &tree), plain(&index, LINES, label, &tree), "{name}");
        let (ours, theirs) = (nanoseconds(proved, &index, label, &tree), nanoseconds(plain, &index, label, &tree));
        println!("| {name} | {ours:.1} | {theirs:.1} | {:.2} |", ours / theirs);
    }
}
