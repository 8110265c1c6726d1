//! treeshow FILE [SOURCE] [TABLE]: a table, or rows of a tree, as text that people read. See docs/FORMAT.md, "For people".

use reactive_build::table::Table;
use reactive_build::{Refusal, code};
use std::path::Path;
use std::process::ExitCode;
use viewer::input::{self, Sort};
use viewer::links::links;
use viewer::program::{Words, complain, show};
use viewer::proved;
use viewer::source::Source;
use viewer::{refusal, text};

const USAGE: &str = "usage: treeshow [--run] FILE [SOURCE] [TABLE]\n\
    FILE is a table, or rows of a tree (with answers or without); SOURCE is the text that its spans mark\n\
    TABLE, for rows: the table that they were built of, which has the spans of all instructions; - for no source\n\
    --run: of rows with answers the run alone";

fn main() -> ExitCode {
    let Some(words) = Words::of_caller("--run") else {
        eprintln!("{USAGE}");
        return ExitCode::from(2);
    };
    match shown(words.first(), words.file(1), words.file(2), words.option) {
        Ok(Shown { text, status }) => show("treeshow", &text, status),
        Err(why) => complain("treeshow", &why),
    }
}

struct Shown {
    text: String,
    /// 1 for a refusal.
    status: u8,
}

fn shown(path: &Path, source: Option<&Path>, table: Option<&Path>, run_alone: bool) -> Result<Shown, String> {
    let file = input::bytes(path)?;
    let source = source.map(input::source).transpose()?;
    let table = table.map(read_table).transpose()?;
    match input::sort(&file) {
        Sort::Table if run_alone || table.is_some() => Err(format!("{}: these are no rows", path.display())),
        Sort::Table => Ok(of_table(&file, source.as_ref())),
        Sort::Rows => Ok(of_rows(&file, source.as_ref(), table.as_ref(), run_alone)),
    }
}

fn read_table(path: &Path) -> Result<Table, String> {
    let file = input::bytes(path)?;
    let table = proved::words(&file).and_then(|words| Table::of_words(&words));
    table.map_err(|refused| format!("{}: {}", path.display(), refusal::told(&refused, &file, None)))
}

/// The blocks, then the tree, or why there is none, then which run law speaks of the table.
fn of_table(file: &[u8], source: Option<&Source>) -> Shown {
    let words = match proved::words(file) {
        Ok(words) => words,
        Err(refused) => return refusing(String::new(), &refused, file, None),
    };
    let table = match Table::of_words(&words) {
        Ok(table) => table,
        Err(refused) => return refusing(String::new(), &refused, file, None),
    };
    let shown = format!("Blocks\n{}\n", text::blocks(&table, source));
    match proved::build(&words) {
        Ok(built) => {
            let tree = text::tree(&built, Some(&table), source);
            let text = format!("{shown}Tree\n{tree}\nRun law\n{}\n", text::law(proved::law(&words)));
            Shown { text, status: 0 }
        }
        Err(refused) => refusing(shown, &refused, file, Some(&table)),
    }
}

/// The tree, then the run, where there are answers.
fn of_rows(file: &[u8], source: Option<&Source>, table: Option<&Table>, run_alone: bool) -> Shown {
    let read = input::rows(file).and_then(|read| Ok((proved::stored(read.rows)?, read.answers)));
    let (built, answers) = match read {
        Ok(read) => read,
        Err(refused) => return refusing(String::new(), &refused, file, None),
    };
    let tree = if run_alone { String::new() } else { text::tree(&built, table, source) };
    let Some(answers) = answers else {
        let missing = Refusal { code: code::FORM, at: file.len() as u32 };
        return if run_alone { refusing(tree, &missing, file, None) } else { Shown { text: tree, status: 0 } };
    };
    let shown = if run_alone { tree } else { format!("Tree\n{tree}\nRun\n") };
    match proved::run(&built.rows, &answers) {
        Ok(run) => {
            let said = text::run(&run, &answers, &built.nodes, &links(&built.nodes, table), source);
            Shown { text: format!("{shown}{said}"), status: 0 }
        }
        Err(refused) => refusing(shown, &refused, file, None),
    }
}

fn refusing(shown: String, refused: &Refusal, file: &[u8], table: Option<&Table>) -> Shown {
    Shown { text: format!("{shown}{}\n", refusal::told(refused, file, table)), status: 1 }
}
