// Time of the proved drawing against a plain Rust loop that writes into a Vec, on the largest text that the limits allow.
// Build and run: bench/dot/run (see there).
use std::hint::black_box;
use std::time::Instant;

unsafe extern "C" {
    // A slice is passed as its pointer and its length.
    fn reactive_blocks_to_dot(words: *const u32, len: usize, text: *mut u8, lent: usize, at: *mut u32, length: *mut usize) -> u32;
}

fn proved(words: &[u32], text: &mut [u8]) -> (u32, usize) {
    let (mut at, mut length) = (0, 0);
    let code = unsafe { reactive_blocks_to_dot(words.as_ptr(), words.len(), text.as_mut_ptr(), text.len(), &mut at, &mut length) };
    (code, length)
}

const BLOCKS: usize = 1024;
const CASES: usize = 1024;
// Words of a block's row.
const BLOCK: usize = 11;

// What a plain engineer would write, given a table whose blocks are all Switches: a number by its digits, pushed one by one.
fn push_number(text: &mut Vec<u8>, n: u32) {
    if n >= 10 {
        push_number(text, n / 10);
    }
    text.push(b'0' + (n % 10) as u8);
}

fn push_line(text: &mut Vec<u8>, from: u32, to: u32) {
    text.push(b'n');
    push_number(text, from);
    text.extend_from_slice(b" -> n");
    push_number(text, to);
    text.extend_from_slice(b";\n");
}

fn lines(words: &[u32], mut line: impl FnMut(u32, u32)) {
    let cases = 6 + words[1] as usize * BLOCK + words[2] as usize * 7;
    for row in 0..words[1] {
        let at = 6 + row as usize * BLOCK;
        let (first, count, fallthrough) = (words[at + 4], words[at + 5], words[at + 6]);
        for case in first..first + count {
            line(row, words[cases + case as usize * 2 + 1]);
        }
        line(row, fallthrough);
    }
}

#[inline(never)]
fn plain(words: &[u32], text: &mut Vec<u8>) {
    text.clear();
    text.extend_from_slice(b"digraph g {\n");
    lines(words, |from, to| push_line(text, from, to));
    text.extend_from_slice(b"}\n");
}

// The same with the standard library's formatting.
#[inline(never)]
fn formatted(words: &[u32], text: &mut Vec<u8>) {
    use std::io::Write;
    text.clear();
    text.extend_from_slice(b"digraph g {\n");
    lines(words, |from, to| writeln!(text, "n{from} -> n{to};").unwrap());
    text.extend_from_slice(b"}\n");
}

// 1,024 Switches over all 1,024 case rows.
fn largest() -> Vec<u32> {
    let mut words = vec![0, BLOCKS as u32, 0, CASES as u32, 1, 1];
    for row in 0..BLOCKS as u32 {
        let mut block = vec![0; BLOCK];
        (block[2], block[5], block[6], block[8]) = (7, CASES as u32, 1023 - row, 1);
        words.extend(block);
    }
    for case in 0..CASES as u32 {
        words.extend([0, (case * 7) % 1024]);
    }
    words.extend([0, 1]);
    words
}

// The least of some runs, in milliseconds.
fn least(mut run: impl FnMut()) -> f64 {
    (0..9)
        .map(|_| {
            let start = Instant::now();
            run();
            start.elapsed().as_secs_f64() * 1e3
        })
        .fold(f64::INFINITY, f64::min)
}

fn main() {
    let words = largest();
    let mut expected = Vec::new();
    plain(&words, &mut expected);
    let mut text = vec![1; expected.len()];
    assert_eq!(proved(&words, &mut text), (0, expected.len()));
    assert!(text == expected);

    let draw = |text: &mut [u8]| _ = black_box(proved(black_box(&words), text));
    let a = least(|| draw(&mut text));
    let b = least(|| plain(black_box(&words), black_box(&mut expected)));
    let c = least(|| formatted(black_box(&words), black_box(&mut expected)));
    println!("| Plain Rust | proved, ms | plain Rust, ms | times |\n|---|---|---|---|");
    println!("| pushes bytes | {a:.2} | {b:.2} | {:.2} |", a / b);
    println!("| uses `writeln!` | {a:.2} | {c:.2} | {:.2} |", a / c);
}
