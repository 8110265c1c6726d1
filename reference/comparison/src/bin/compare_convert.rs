//! `compare_convert [FILES [SEED]]`: seeded tables and files, and every stored vector, through the writer and
//! the converters of M-112 and the reader of files, by the model and by the proved library, into buffers of exactly
//! the length needed, one less, none, and some more; and round trips by the library alone. The status is not 0 if
//! anything differs, if a round trip does not give the text again, if an answer was not met in a long enough
//! run, or if the library is not linked.

use std::process::ExitCode;

use comparison::candidate::{CANDIDATE_CONVERT, CandidateConvert};
use comparison::generate::files::good_of_length;
use comparison::generate::generate;
use comparison::harness::{LONG_ENOUGH, Room, Verdict, count_and_tell, stale, with_library};
use comparison::model::check::check;
use comparison::model::convert::{
    NEW, OLD, Placed, narrow, new_text, new_to_old, old_text, old_to_new, widen, write_table,
};
use comparison::model::table::Table;
use comparison::model::text::{MAX_BYTES, parse, read_table, write_as};
use comparison::rng::Rng;
use comparison::vector::from_bytes;

/// Accepted, and every refusal that a file can have.
const ANSWERS: [u32; 8] = [0, 2, 3, 4, 50, 51, 52, 53];

/// Those of the reader.
const READ_ANSWERS: [u32; 4] = [0, 50, 51, 54];

type Convert = fn(&[u8], &mut [u8]) -> Placed;

#[derive(Default)]
struct Met {
    /// Of the writer, of old to new, of new to old: how often each of `ANSWERS` was given.
    answers: [[u64; ANSWERS.len()]; 3],
    /// Of the reader, of `READ_ANSWERS`.
    read_answers: [u64; READ_ANSWERS.len()],
    old_trips: u64,
    new_trips: u64,
    /// Old files whose new text is too long to be read back.
    too_long: u64,
    longest: usize,
    calls: u64,
    reads: u64,
    differences: u64,
}

fn main() -> ExitCode {
    with_library("convert", CANDIDATE_CONVERT, compare_convert)
}

fn compare_convert(candidate: CandidateConvert, files: u64, seed: u64) -> Verdict {
    let mut met = Met::default();
    for number in 0..files {
        let mut rng = Rng::of_table(seed, number);
        let words = generate(seed, number).words;
        met.table(candidate, &mut rng, &words);
        met.files(candidate, &mut rng, &words);
    }
    let mut rng = Rng::new(seed);
    met.long(candidate, &mut rng);
    let stored = from_bytes(include_bytes!("../../../../crates/vectors/data/vectors.bin"));
    for vector in &stored {
        met.files(candidate, &mut rng, &vector.words);
    }

    let verdict = met.verdict(files);
    println!(
        "seed {seed}: {files} tables and {} stored vectors, {} texts and {} readings into lent buffers, round trips: {} from old, {} from new, {} too long to be read back; {verdict}, longest text {} bytes",
        stored.len(),
        met.calls,
        met.reads,
        met.old_trips,
        met.new_trips,
        met.too_long,
        met.longest,
    );
    verdict
}

/// Whether the words have a head and as many rows as it says, and not too many.
fn whole(words: &[u32]) -> bool {
    words.len() >= 6 && words[1..6].iter().all(|count| *count < 5_000) && Table::of(words).end == words.len()
}

impl Met {
    fn table(&mut self, candidate: CandidateConvert, rng: &mut Rng, words: &[u32]) {
        let exact = check(words).map_or(20, |_| write_as(NEW, words).len());
        for lent in lengths(exact, rng) {
            let mut expected_text = stale(lent);
            let expected = write_table(words, &mut expected_text);
            self.compare(0, lent, expected, &expected_text, |text| (candidate.write)(words, text), &words);
            // What was written reads as these words.
            if expected.code == 0 && expected.length <= MAX_BYTES && parse(&expected_text[..expected.length]).as_deref() != Ok(words) {
                self.differs("the writer's text", &words);
            }
        }
    }

    /// The table as a new file and as an old one, each spoilt at times, and back.
    fn files(&mut self, candidate: CandidateConvert, rng: &mut Rng, words: &[u32]) {
        if !whole(words) {
            return;
        }
        let old = narrow(words);
        // Half of the new files have no span with two ends.
        let agreeing = if rng.percent(50) { widen(&old) } else { words.to_vec() };
        let new_file = spoilt(rng, write_as(NEW, &agreeing).into_bytes());
        let old_file = spoilt(rng, write_as(OLD, &old).into_bytes());
        self.both(candidate, rng, &old_file, &new_file);
    }

    /// Lengths about the limit: of an old file, of its new text, and of a new file.
    fn long(&mut self, candidate: CandidateConvert, rng: &mut Rng) {
        for length in [MAX_BYTES - 1, MAX_BYTES, MAX_BYTES + 1] {
            let new_file = good_of_length(length);
            let mut longer = new_file.clone();
            longer.truncate(MAX_BYTES);
            // Short enough to be read, for the model to make an old one of it.
            let words = parse(&good_of_length(MAX_BYTES - 200)).expect("a good file");
            let old_file = write_as(OLD, &narrow(&words)).into_bytes();
            self.both(candidate, rng, &old_file, &new_file);
            self.both(candidate, rng, &longer, &longer);
        }
        // Old files of instructions with long spans, whose new texts are too long to be read back.
        for instructions in [1_000, 2_000, 2_020] {
            let mut words = vec![0, 1, instructions, 0, 1, 1, 0, instructions, 3, 0, 0, 0, 0, 0, 7, 65_535];
            words.extend((0..instructions).flat_map(|_| [1, 0, 0, 0, 0, 65_535]));
            words.extend([0, 1]);
            let old_file = write_as(OLD, &words).into_bytes();
            let new_file = write_as(NEW, &widen(&words)).into_bytes();
            self.both(candidate, rng, &old_file, &new_file);
        }
    }

    fn both(&mut self, candidate: CandidateConvert, rng: &mut Rng, old_file: &[u8], new_file: &[u8]) {
        self.convert(1, candidate.old_to_new, old_to_new, new_text(old_file).ok(), rng, old_file);
        self.convert(2, candidate.new_to_old, new_to_old, old_text(new_file).ok(), rng, new_file);
        self.read(candidate, rng, new_file);
        self.read(candidate, rng, old_file);
        if let Some(new) = through(candidate.old_to_new, old_file) {
            if new.len() > MAX_BYTES {
                self.too_long += 1;
            } else {
                self.old_trips += 1;
                if through(candidate.new_to_old, &new).as_deref() != Some(old_file) {
                    self.differs("old to new to old", &old_file);
                }
            }
        }
        if let Some(old) = through(candidate.new_to_old, new_file) {
            self.new_trips += 1;
            if through(candidate.old_to_new, &old).as_deref() != Some(new_file) {
                self.differs("new to old to new", &new_file);
            }
        }
    }

    fn convert(&mut self, which: usize, candidate: Convert, model: Convert, text: Option<String>, rng: &mut Rng, file: &[u8]) {
        for lent in lengths(text.map_or(20, |text| text.len()), rng) {
            let mut expected_text = stale(lent);
            let expected = model(file, &mut expected_text);
            let shown = String::from_utf8_lossy(file);
            self.compare(which, lent, expected, &expected_text, |text| candidate(file, text), &shown);
        }
    }

    /// Code, at, count and every lent word are compared, and the words around them.
    fn read(&mut self, candidate: CandidateConvert, rng: &mut Rng, file: &[u8]) {
        for lent in lengths(parse(file).map_or(20, |words| words.len()), rng) {
            self.reads += 1;
            let mut expected_words = stale(lent);
            let expected = read_table(file, &mut expected_words);
            let answer = READ_ANSWERS.iter().position(|code| *code == expected.code);
            self.read_answers[answer.expect("a known code")] += 1;
            let mut room = Room::new(lent);
            let read = (candidate.read)(file, room.lent());
            let untouched = room.is_kept();
            if read != expected || room.lent() != expected_words || !untouched {
                let shown = String::from_utf8_lossy(file);
                self.differs(&format!("read, {lent} words lent: {read:?} for {expected:?}, words around them kept: {untouched}"), &shown);
            }
        }
    }

    /// Code, at, length and every byte of the buffer are compared, and the bytes around it.
    fn compare(&mut self, which: usize, lent: usize, expected: Placed, expected_text: &[u8], run: impl Fn(&mut [u8]) -> Placed, input: &dyn std::fmt::Debug) {
        self.calls += 1;
        self.longest = self.longest.max(expected.length);
        match ANSWERS.iter().position(|code| *code == expected.code) {
            Some(answer) => self.answers[which][answer] += 1,
            None => assert!(which == 0 && expected.code == 1, "a known code"),
        }
        let mut room = Room::new(lent);
        let placed = run(room.lent());
        let untouched = room.is_kept();
        if placed != expected || room.lent() != expected_text || !untouched {
            self.differs(&format!("call {which}, {lent} bytes lent: {placed:?} for {expected:?}, bytes around it kept: {untouched}"), input);
        }
    }

    fn differs(&mut self, what: &str, input: &dyn std::fmt::Debug) {
        if count_and_tell(&mut self.differences) {
            println!("differs: {what}: {input:?}");
        }
    }

    fn verdict(&self, files: u64) -> Verdict {
        let mut verdict = Verdict::of(self.differences, files >= LONG_ENOUGH);
        let possible = |which: usize, code: u32| match which {
            0 => !(50..=52).contains(&code),
            1 => code != 52,
            _ => true,
        };
        for (which, answers) in self.answers.iter().enumerate() {
            for (code, times) in ANSWERS.iter().zip(answers) {
                if possible(which, *code) {
                    verdict.need(format_args!("answer {code} of call {which}"), *times);
                }
            }
        }
        for (code, times) in READ_ANSWERS.iter().zip(self.read_answers) {
            verdict.need(format_args!("answer {code} of the reader"), times);
        }
        verdict.need("a new text that is too long", self.too_long);
        verdict
    }
}

fn lengths(exact: usize, rng: &mut Rng) -> [usize; 4] {
    [exact, exact.saturating_sub(1), 0, exact + rng.below(40) as usize]
}

/// One file in eight has a byte changed, put in or left out.
fn spoilt(rng: &mut Rng, mut file: Vec<u8>) -> Vec<u8> {
    if rng.below(8) > 0 {
        return file;
    }
    let at = rng.below(file.len() as u32) as usize;
    let byte = rng.pick(b"\n 0179a\r");
    match rng.below(3) {
        0 => file[at] = byte,
        1 => file.insert(at, byte),
        _ => drop(file.remove(at)),
    }
    file
}

/// The text that a converter gives with room enough; none if it refuses.
fn through(convert: Convert, file: &[u8]) -> Option<Vec<u8>> {
    let mut text = stale(2 * MAX_BYTES + 6);
    let placed = convert(file, &mut text);
    text.truncate(placed.length);
    (placed.code == 0).then_some(text)
}
