//! Files for the program `treebuild`, good and bad.

use super::corners::corners;
use super::generate;
use crate::model::check::check;
use crate::model::table::{BLOCK_WORDS, INSTRUCTION_WORDS, NAMES, Table};
use crate::model::text::{MAX_BYTES, write_file};

/// Every fault at every kind of place, the lengths about the limit, and some good files.
pub fn files() -> Vec<Vec<u8>> {
    let (_, words) = corners().swap_remove(0);
    let small = write_file(&words);
    let mut files: Vec<Vec<u8>> = vec![small.clone().into_bytes()];
    files.extend(cut(&small));
    files.extend(changed(&small));
    files.extend(numbers());
    files.extend(counts());
    files.extend(long());
    files.extend(good());
    files
}

/// The file cut after every byte.
fn cut(file: &str) -> Vec<Vec<u8>> {
    (0..file.len()).map(|length| file.as_bytes()[..length].to_vec()).collect()
}

/// At every byte: another byte put in its place or before it.
fn changed(file: &str) -> Vec<Vec<u8>> {
    let mut files = Vec::new();
    for at in 0..=file.len() {
        let bytes = file.as_bytes();
        for byte in [b'\n', b' ', b'0', b'7', b'a', b'\r', 0, 255] {
            let mut longer = bytes.to_vec();
            longer.insert(at, byte);
            files.push(longer);
            if at < bytes.len() && bytes[at] != byte {
                let mut other = bytes.to_vec();
                other[at] = byte;
                files.push(other);
            }
        }
    }
    // A third of them, so that every place is met with some byte of every kind.
    files.into_iter().step_by(7).collect()
}

/// Numbers at and past 32 bits, with leading zeros and signs, as the first number of a file.
fn numbers() -> Vec<Vec<u8>> {
    let numbers = [
        "0",
        "00",
        "01",
        "4294967295",
        "4294967296",
        "4294967299",
        "4294967300",
        "42949672950",
        "4294967205",
        "5000000000",
        "9999999999",
        "99999999999999999999",
        "-1",
        "+1",
        "1.0",
        "0x1",
        "65536",
        "65535",
        "1e3",
        "",
        " 1",
        "1 ",
    ];
    let [head, tables @ ..] = NAMES;
    let tables = tables.join("\n");
    let file = |number: &&str| format!("{head}\n{number} 0 0 0 0 0\n{tables}\n").into_bytes();
    numbers.iter().map(file).collect()
}

/// Counts over their limits, with their lines and without.
fn counts() -> Vec<Vec<u8>> {
    let mut files = Vec::new();
    for identifiers in [4_096, 4_097, 5_000] {
        let mut words = vec![0, 0, 0, 0, 0, identifiers];
        words.resize(6 + identifiers as usize, 1);
        files.push(write_file(&words).into_bytes());
    }
    for count in 1..6 {
        let mut head = [0; 6];
        head[count] = u32::MAX;
        let head: Vec<String> = head.iter().map(u32::to_string).collect();
        let head = format!("{}\n{}\n", NAMES[0], head.join(" "));
        files.push(head.clone().into_bytes());
        files.push((head + NAMES[1] + "\n").into_bytes());
    }
    files
}

/// Files about 32,768 bytes long: of any kind, and good ones.
fn long() -> Vec<Vec<u8>> {
    let mut files: Vec<Vec<u8>> =
        [MAX_BYTES - 1, MAX_BYTES, MAX_BYTES + 1, MAX_BYTES + 9].map(|n| vec![b'0'; n]).to_vec();
    for length in [MAX_BYTES - 1, MAX_BYTES, MAX_BYTES + 1] {
        files.push(good_of_length(length));
        let mut bad = good_of_length(length);
        *bad.last_mut().expect("it is long") = b' ';
        files.push(bad);
    }
    files
}

/// A good and accepted file of exactly this many bytes: block lines of 22 bytes, place lines
/// of five, and an id that is as long as is left.
pub fn good_of_length(length: usize) -> Vec<u8> {
    let file = |blocks: usize, places: usize, id: u32| {
        let mut words = vec![0, blocks as u32, 0, 0, places as u32, 2_000];
        words.extend([0, 0, 3, 0, 0, 0, 0, 0, id, 0, 0]);
        words.extend(vec![0; BLOCK_WORDS * (blocks - 1)]);
        words.extend(vec![1_111; places]);
        words.extend(vec![1; 2_000]);
        write_file(&words)
    };
    let mut blocks = 999;
    while file(blocks, 2_000, 1).len() > length {
        blocks -= 1;
    }
    let rest = length - file(blocks, 2_000, 1).len();
    let id = [1, 11, 111, 1_111, 11_111][rest % 5];
    let file = file(blocks, 2_000 + rest / 5, id);
    assert_eq!(file.len(), length);
    file.into_bytes()
}

/// Corners and programs, some of them with too many rows for the program, as files.
fn good() -> Vec<Vec<u8>> {
    let corners = corners().into_iter().step_by(4).map(|(_, words)| words);
    let programs = (200_000..200_060).map(|number| generate(5, number).words);
    let fits = |words: &Vec<u32>| {
        let whole = words.len() >= 6 && (1..6).all(|count| words[count] < 5_000);
        whole && Table::of(words).end == words.len()
    };
    let mut files: Vec<Vec<u8>> =
        corners.chain(programs).filter(fits).map(|words| write_file(&words).into_bytes()).collect();
    files.push(write_file(&many_rows(1_023)).into_bytes());
    files.push(write_file(&many_rows(1_024)).into_bytes());
    files
}

/// One block of so many instructions: two rows for each, and two more.
pub fn many_rows(instructions: u32) -> Vec<u32> {
    let mut words = vec![0, 1, instructions, 0, 1, 1, 0, instructions, 3, 0, 0, 0, 0, 0, 1, 0, 0];
    for _ in 0..instructions {
        words.extend([0; INSTRUCTION_WORDS]);
    }
    words.extend([0, 1]);
    assert!(check(&words).is_ok());
    words
}
