//! The sets of blocks and the control stack.

use super::Refusal;

/// An open statement that a jump may mean.
#[derive(Clone, Copy)]
pub enum Target {
    /// If, Switch or Case: only its end counts.
    Plain {
        block: u32,
    },
    Loop {
        block: u32,
        continue_block: u32,
        loop_block: u32,
        owns_loop: bool,
    },
}

impl Target {
    fn block(self) -> u32 {
        match self {
            Target::Plain { block } | Target::Loop { block, .. } => block,
        }
    }

    fn continues_at(self, block: u32) -> bool {
        matches!(self, Target::Loop { continue_block, .. } if continue_block == block)
    }

    fn is_loop(self) -> bool {
        matches!(self, Target::Loop { .. })
    }
}

pub const IMPLICIT: u32 = 0;
pub const LABELED: u32 = 1;
pub const UNLABELED: u32 = 2;

pub struct Context {
    emitted: Vec<bool>,
    scheduled: Vec<bool>,
    catch_handlers: Vec<bool>,
    scope_fallthroughs: Vec<bool>,
    stack: Vec<Target>,
}

impl Context {
    pub fn new(blocks: usize) -> Self {
        let none = || vec![false; blocks];
        Self {
            emitted: none(),
            scheduled: none(),
            catch_handlers: none(),
            scope_fallthroughs: none(),
            stack: Vec::new(),
        }
    }

    /// Puts the block into the emitted set: 11 if it is there.
    pub fn emit(&mut self, block: u32) -> Result<(), Refusal> {
        if std::mem::replace(&mut self.emitted[block as usize], true) {
            return Err(Refusal { code: 11, at: block });
        }
        Ok(())
    }

    pub fn is_scheduled(&self, block: u32) -> bool {
        self.scheduled[block as usize] || self.catch_handlers[block as usize]
    }

    pub fn schedule_catch_handler(&mut self, handler: u32) {
        self.catch_handlers[handler as usize] = true;
    }

    pub fn remember_scope_fallthrough(&mut self, block: u32) {
        self.scope_fallthroughs[block as usize] = true;
    }

    pub fn is_scope_fallthrough(&self, block: u32) -> bool {
        self.scope_fallthroughs[block as usize]
    }

    pub fn schedule(&mut self, block: u32) {
        assert!(!self.scheduled[block as usize], "a break block is never scheduled twice");
        self.scheduled[block as usize] = true;
        self.stack.push(Target::Plain { block });
        assert!(self.stack.len() <= 1_152, "the stack holds at most 1,152 entries");
    }

    /// The fallthrough goes in without a test; then the continue block is tested.
    pub fn schedule_loop(
        &mut self,
        block: u32,
        continue_block: u32,
        loop_block: u32,
    ) -> Result<(), Refusal> {
        self.scheduled[block as usize] = true;
        if self.scheduled[continue_block as usize] {
            return Err(Refusal { code: 15, at: continue_block });
        }
        self.scheduled[continue_block as usize] = true;
        let owns_loop = !self.scheduled[loop_block as usize];
        self.scheduled[loop_block as usize] = true;
        self.stack.push(Target::Loop { block, continue_block, loop_block, owns_loop });
        Ok(())
    }

    pub fn unschedule(&mut self) {
        match self.stack.pop().expect("what was scheduled last is on the stack") {
            Target::Plain { block } => self.scheduled[block as usize] = false,
            Target::Loop { block, continue_block, loop_block, owns_loop } => {
                self.scheduled[block as usize] = false;
                self.scheduled[continue_block as usize] = false;
                if owns_loop {
                    self.scheduled[loop_block as usize] = false;
                }
            }
        }
    }

    /// The kind of a break to this block and the loops above its entry, or nothing if no entry has
    /// it. The innermost counts.
    pub fn break_kind(&self, block: u32) -> Option<(u32, u32)> {
        let (found, at_top, loops) = self.innermost(|target| target.block() == block)?;
        let kind = match found {
            Target::Loop { .. } if loops > 0 => LABELED,
            Target::Loop { .. } => UNLABELED,
            Target::Plain { .. } if at_top => IMPLICIT,
            Target::Plain { .. } => LABELED,
        };
        Some((kind, loops))
    }

    /// The end of the innermost loop with this continue block, the kind of a continue to it and the
    /// loops above it.
    pub fn continue_target(&self, block: u32) -> Option<(u32, u32, u32)> {
        let (found, at_top, loops) = self.innermost(|target| target.continues_at(block))?;
        let kind = if loops > 0 {
            LABELED
        } else if at_top {
            IMPLICIT
        } else {
            UNLABELED
        };
        Some((found.block(), kind, loops))
    }

    /// The innermost entry that is meant, whether it is the stack's top, and the loops above it.
    fn innermost(&self, is_meant: impl Fn(Target) -> bool) -> Option<(Target, bool, u32)> {
        let mut loops = 0;
        for (above, target) in self.stack.iter().rev().enumerate() {
            if is_meant(*target) {
                return Some((*target, above == 0, loops));
            }
            loops += u32::from(target.is_loop());
        }
        None
    }
}
