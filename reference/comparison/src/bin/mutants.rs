//! `mutants [PART OF A NAME]`, run in the folder `reference`: builds each wrong model of
//! `mutants.txt` and says whether the vectors find it and, if not, whether a run of the comparison
//! does. The status is not 0 if one is found by neither.
//!
//! `mutants dropin [PART OF A NAME]`, with REACTIVE_BUILD_DIR the whole path of the proved library's folder:
//! the same of the wrong drop-ins of `dropin/mutants.txt`, and the drop-in's comparison.

use std::fs;
use std::path::Path;
use std::process::{Command, ExitCode, Stdio};

const WORK: &str = "target/mutants/work";

/// A list of mutants: the folder of the files that they change, and the runs that may find them, the
/// shortest first: what it is, its program and arguments.
struct List {
    path: &'static str,
    folder: &'static str,
    runs: &'static [(&'static str, &'static str, &'static [&'static str])],
}

const OF_THE_MODEL: List = List {
    path: "mutants.txt",
    folder: "comparison/src/model",
    runs: &[
        ("the vectors", "vectors", &["replay", "../crates/vectors/data/vectors.bin"]),
        ("the comparison", "compare", &["160000"]),
    ],
};

const OF_THE_DROP_IN: List = List {
    path: "dropin/mutants.txt",
    folder: "dropin/src/proved/library",
    runs: &[("the comparison", "compare_dropin", &["20000"])],
};

struct Mutant {
    name: String,
    file: String,
    old: String,
    new: String,
}

fn main() -> ExitCode {
    let mut arguments = std::env::args().skip(1).peekable();
    let list = match arguments.next_if_eq("dropin") {
        Some(_) => OF_THE_DROP_IN,
        None => OF_THE_MODEL,
    };
    let part = arguments.next().unwrap_or_default();
    let mut mutants = read(&fs::read_to_string(list.path).expect(list.path));
    mutants.retain(|mutant| mutant.name.contains(&part));
    copy_the_sources();
    for mutant in &mutants {
        let times = right(&list, mutant).matches(&mutant.old).count();
        assert_eq!(times, 1, "{}: its text is there once", mutant.name);
    }
    let mut found = vec![0; list.runs.len()];
    for mutant in &mutants {
        match tried(&list, mutant) {
            Ok(Some(run)) => {
                found[run] += 1;
                println!("{}: found by {}", mutant.name, list.runs[run].0);
            }
            Ok(None) => println!("{}: NOT FOUND", mutant.name),
            Err(()) => println!("{}: DOES NOT BUILD", mutant.name),
        }
    }
    let missed = mutants.len() - found.iter().sum::<usize>();
    println!("{} mutants, {} found by {}, {missed} not found", mutants.len(), found[0], list.runs[0].0);
    if missed == 0 { ExitCode::SUCCESS } else { ExitCode::FAILURE }
}

/// Beside the folder as beside `reference`: ffi/rust, which the comparison can be built with.
fn copy_the_sources() {
    fs::create_dir_all(WORK).expect("a folder");
    for (part, to) in [
        ("Cargo.toml", WORK),
        ("comparison", WORK),
        ("dropin", WORK),
        ("dropin_comparison", WORK),
        ("oxc_react_compiler", WORK),
        ("stand-ins", WORK),
        ("../ffi", "target/mutants"),
    ] {
        let copied = Command::new("cp").args(["-rpu", part, to]).status().expect("cp");
        assert!(copied.success());
    }
}

fn right(list: &List, mutant: &Mutant) -> String {
    fs::read_to_string(Path::new(list.folder).join(&mutant.file)).expect(&mutant.file)
}

/// Which run finds it, if it builds.
fn tried(list: &List, mutant: &Mutant) -> Result<Option<usize>, ()> {
    let path = Path::new(WORK).join(list.folder).join(&mutant.file);
    let right = right(list, mutant);
    fs::write(&path, right.replace(&mutant.old, &mutant.new)).expect("written");
    let mut found = Ok(None);
    for (number, (_, program, arguments)) in list.runs.iter().enumerate() {
        if !build(program) {
            found = Err(());
            break;
        }
        if !run(program, arguments) {
            found = Ok(Some(number));
            break;
        }
    }
    fs::write(&path, right).expect("written");
    found
}

/// Blocks of `name:`, `file:`, `old:` and `new:`, each text going on to the next of these.
fn read(list: &str) -> Vec<Mutant> {
    let blocks = list.split("\nname: ").skip(1);
    let part = |block: &str, from: &str, to: &str| {
        let (_, after) = block.split_once(from).expect(from);
        let text = if to.is_empty() { after } else { after.split_once(to).expect(to).0 };
        text.strip_prefix(' ').unwrap_or(text).to_string()
    };
    let mutant = |block: &str| Mutant {
        name: block.lines().next().expect("a name").to_string(),
        file: part(block, "\nfile:", "\n"),
        old: part(block, "\nold:", "\nnew:"),
        new: part(block.trim_end(), "\nnew:", ""),
    };
    blocks.map(mutant).collect()
}

fn build(program: &str) -> bool {
    let mut cargo = Command::new("cargo");
    cargo.args(["build", "--offline", "--quiet", "--workspace", "--profile", "mutant", "--bin", program]);
    cargo.args(["--target-dir", "target/mutants/target", "--manifest-path"]);
    cargo.arg(format!("{WORK}/Cargo.toml")).env("RUSTFLAGS", "-Awarnings");
    cargo.status().expect("cargo").success()
}

fn run(program: &str, arguments: &[&str]) -> bool {
    let mut command = Command::new(format!("target/mutants/target/mutant/{program}"));
    command.args(arguments).stdout(Stdio::null()).stderr(Stdio::null());
    command.status().expect(program).success()
}
