//! What the program does with its words, its messages and standard output.

use crate::escape::message;
use std::ffi::OsString;
use std::io::{self, Write};
use std::os::fd::BorrowedFd;
use std::path::Path;
use std::process::ExitCode;
use std::sync::atomic::{AtomicBool, Ordering};

/// What a caller asked for.
pub struct Words {
    words: Vec<OsString>,
    /// Whether the option stood first.
    pub option: bool,
}

impl Words {
    /// Of a caller who may give the option and one to three files, the first by its name; else none.
    pub fn of_caller(option: &str) -> Option<Self> {
        let mut words: Vec<OsString> = std::env::args_os().skip(1).collect();
        let has_option = words.first().is_some_and(|first| first == option);
        if has_option {
            words.remove(0);
        }
        let named = words.first().is_some_and(|first| !first.as_encoded_bytes().starts_with(b"-"));
        (named && words.len() <= 3).then_some(Self { words, option: has_option })
    }

    pub fn first(&self) -> &Path {
        Path::new(&self.words[0])
    }

    /// The second or the third file, counted from 0; none where nothing or `-` stands there.
    pub fn file(&self, place: usize) -> Option<&Path> {
        self.words.get(place).filter(|name| *name != "-").map(Path::new)
    }
}

/// Tells why nothing was shown, or not all of it.
pub fn complain(program: &str, why: &str) -> ExitCode {
    eprintln!("{program}: {}", message(why));
    ExitCode::from(2)
}

/// Writes all of the text, and ends with the status; with 2 where that fails.
pub fn show(program: &str, text: &str, status: u8) -> ExitCode {
    if CLOSED.load(Ordering::Relaxed) {
        return complain(program, "standard output is closed");
    }
    match io::stdout().write_all(text.as_bytes()).and_then(|()| io::stdout().flush()) {
        Ok(()) => ExitCode::from(status),
        // Nobody reads any more, as `head` does not: no more is said.
        Err(error) if error.kind() == io::ErrorKind::BrokenPipe => ExitCode::from(2),
        Err(error) => complain(program, &format!("standard output: {error}")),
    }
}

/// Whether standard output was closed when the program was started. Rust's own start opens /dev/null in its place, so that a text would be
/// lost in silence: this is asked before, by the C library's start.
static CLOSED: AtomicBool = AtomicBool::new(false);

#[used]
#[unsafe(link_section = ".init_array")]
static ASK: extern "C" fn() = ask;

extern "C" fn ask() {
    // SAFETY: the number is not -1, and that nothing may be open under it is what is asked.
    let standard_output = unsafe { BorrowedFd::borrow_raw(1) };
    CLOSED.store(standard_output.try_clone_to_owned().is_err(), Ordering::Relaxed);
}
