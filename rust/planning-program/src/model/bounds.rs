//! The bounds of a task that its names do not give.

use super::mistake::{in_range, Mistake};

/// How long procedures, the call stack and a run may be. The numbers of facts and procedures are those of their names.
#[derive(Clone, Copy, Debug, PartialEq, Eq)]
pub struct Bounds {
    /// The last line of each procedure, 1 to 31; the first is line 0.
    pub last_line: u8,
    /// The frames that the call stack may have, 1 to 16; the main procedure's own is one of them.
    pub stack: u8,
    /// The steps that the run on all cases together may make, 1 to 4,096.
    pub steps: u16,
}

impl Bounds {
    /// A mistake where a bound is out of its range.
    pub(super) fn check(&self) -> Result<(), Mistake> {
        in_range("the last line", self.last_line.into(), 1..=31)?;
        in_range("the stack bound", self.stack.into(), 1..=16)?;
        in_range("the step bound", self.steps.into(), 1..=4096)
    }
}
