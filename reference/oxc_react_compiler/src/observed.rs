//! Not of the original: the observer is told when a terminal is dropped. It hears of a terminal's copy from the stand-in for `CloneIn`.

use crate::react_compiler_hir::Terminal;

impl Drop for Terminal<'_> {
    fn drop(&mut self) {
        walk_observer::terminal_dropped();
    }
}
