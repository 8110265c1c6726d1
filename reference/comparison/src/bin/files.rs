//! `files make FOLDER`: writes `00` and on, files for the programs treebuild and treesize, and `printed` and `sized`, what they print of them, one
//! after the other. Where the words pass the check the answer is the reference's, else that of the model of paper 01. `files check FOLDER`: makes them again and
//! compares.

use std::fs;
use std::path::Path;

use comparison::generate::corners::corners;
use comparison::generate::files::{good_of_length, many_rows};
use comparison::generate::generate;
use comparison::model::text::{MAX_BYTES, write_file};
use comparison::reference;
use comparison::vector::{printed, sized};

const FILES: usize = 60;

fn main() {
    reference::install_panic_hook();
    let mut words = std::env::args().skip(1);
    let (task, folder) = (words.next().expect("make or check"), words.next().expect("a folder"));
    reference::on_large_stack(move || match task.as_str() {
        "make" => made().iter().for_each(|(name, bytes)| {
            fs::write(Path::new(&folder).join(name), bytes).expect("written");
        }),
        "check" => made().iter().for_each(|(name, bytes)| {
            let stored = fs::read(Path::new(&folder).join(name)).expect("read");
            assert!(stored == *bytes, "{folder}/{name} is not what is made");
        }),
        _ => panic!("make or check"),
    });
    println!("{FILES} files");
}

/// Each file's name and bytes, then what the programs print of all.
fn made() -> Vec<(String, Vec<u8>)> {
    let mut files = broken();
    files.extend(built(FILES - files.len()));
    assert_eq!(files.len(), FILES);
    let printed: String = files.iter().map(|file| printed(file)).collect();
    let sized: String = files.iter().map(|file| sized(file)).collect();
    let named = files.into_iter().enumerate().map(|(number, file)| (format!("{number:02}"), file));
    named.chain([("printed", printed), ("sized", sized)].map(|(name, text)| (name.to_string(), text.into_bytes()))).collect()
}

/// Paper 01's sample, then files that are not in the form, or too long, or whose words are refused.
fn broken() -> Vec<Vec<u8>> {
    let (_, words) = corners().swap_remove(0);
    let sample = write_file(&words);
    let with = |from: &str, to: &str| sample.replacen(from, to, 1).into_bytes();
    let binary: Vec<u8> = (0..=255).collect();
    let long = good_of_length(MAX_BYTES + 1);
    vec![
        sample.clone().into_bytes(),
        Vec::new(),
        binary,
        vec![0; 4_096],
        sample.as_bytes()[..57].to_vec(),
        sample.as_bytes()[..120].to_vec(),
        sample.as_bytes()[..sample.len() - 1].to_vec(),
        sample.replace('\n', "\r\n").into_bytes(),
        with("0 1 0 0 1 1\n", "0 1 0 0 1 1 \n"),
        with("0 1 0 0 1 1\n", "0  1 0 0 1 1\n"),
        with("0 1 0 0 1 1\n", "0 01 0 0 1 1\n"),
        with("0 1 0 0 1 1\n", "4294967295 1 0 0 1 1\n"),
        with("0 1 0 0 1 1\n", "4294967296 1 0 0 1 1\n"),
        with("0 1 0 0 1 1\n", "0 2 0 0 1 1\n"),
        with("0 1 0 0 1 1\n", "0 4294967295 0 0 1 1\n"),
        with("\nnamed\n1", "\nnamed\n2"),
        with("0 0 3 0 0 0 0 0 7 0 0", "0 0 22 0 0 0 0 0 7 0 0"),
        with("0 0 3 0 0 0 0 0 7 0 0", "0 0 3 1 0 0 0 0 7 0 0"),
        with("0 0 3 0 0 0 0 0 7 0 0", "0 0 3 0 0 0 0 0 7 5 4"),
        with(" from to\n", " span\n"),
        (sample.clone() + "\n").into_bytes(),
        good_of_length(MAX_BYTES),
        long.clone(),
        long[..MAX_BYTES].to_vec(),
        vec![b'0'; MAX_BYTES],
        vec![b'0'; MAX_BYTES + 1],
        write_file(&many_rows(1_023)).into_bytes(),
        write_file(&many_rows(1_024)).into_bytes(),
    ]
}

/// Corners of the walk, and lowered programs that a file can hold.
fn built(count: usize) -> Vec<Vec<u8>> {
    let corners = corners().into_iter().skip(1).step_by(6).map(|(_, words)| words);
    let programs = (300_000..).map(|number| generate(3, number).words);
    let files = corners.take(count / 2).chain(programs).filter(|words| {
        words.len() >= 6 && (1..6).all(|count| words[count] < 5_000) && whole(words)
    });
    let files = files.map(|words| write_file(&words).into_bytes());
    files.filter(|file| file.len() <= MAX_BYTES).take(count).collect()
}

fn whole(words: &[u32]) -> bool {
    comparison::model::table::Table::of(words).end == words.len()
}
