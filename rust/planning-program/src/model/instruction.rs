//! One instruction, with numbers or with names, and its three bytes.

use super::names::NameKind;
use std::fmt;

/// An instruction. Its operands are numbers as in the files, or names: `Instruction<String>` is what [`procedure`](super::words::procedure)
/// takes and `Instruction<&str>` what [`Names::named`](super::Names::named) gives.
#[derive(Clone, Copy, Debug, PartialEq, Eq)]
pub enum Instruction<Operand = u8> {
    /// Nothing stands on the line.
    Empty,
    /// Does an action.
    Act(Operand),
    /// Goes to the line `target` when the fact `unless` is false, and on to the next line when it is true.
    Goto {
        /// The line to go to, in the same procedure.
        target: u8,
        /// The fact that is looked at.
        unless: Operand,
    },
    /// Calls a procedure, which begins at its line 0.
    Call(Operand),
    /// Ends the procedure, or the case if no other procedure called it.
    End,
}

/// Does the action with this name.
pub fn act(action: impl Into<String>) -> Instruction<String> {
    Instruction::Act(action.into())
}

/// Goes to the line `target` when the fact is **false**, and on to the next line when it is true.
pub fn goto_unless(target: u8, fact: impl Into<String>) -> Instruction<String> {
    Instruction::Goto {
        target,
        unless: fact.into(),
    }
}

/// Calls the procedure with this name; it may be the caller itself.
pub fn call(procedure: impl Into<String>) -> Instruction<String> {
    Instruction::Call(procedure.into())
}

/// Ends the procedure, or the case if no other procedure called it.
pub fn end() -> Instruction<String> {
    Instruction::End
}

/// Leaves the line open.
pub fn empty() -> Instruction<String> {
    Instruction::Empty
}

impl Instruction {
    /// The three bytes op, p and q.
    pub fn bytes(self) -> [u8; 3] {
        match self {
            Instruction::Empty => [0, 0, 0],
            Instruction::Act(action) => [1, action, 0],
            Instruction::Goto { target, unless } => [2, target, unless],
            Instruction::Call(procedure) => [3, procedure, 0],
            Instruction::End => [4, 0, 0],
        }
    }

    /// The instruction that three bytes spell, if they spell one. Whether a task has its operands is not asked.
    ///
    /// ```
    /// use planning_program::model::Instruction;
    ///
    /// assert_eq!(Instruction::from_bytes([1, 7, 0]), Some(Instruction::Act(7)));
    /// assert_eq!(Instruction::from_bytes([1, 7, 1]), None);
    /// ```
    pub fn from_bytes(bytes: [u8; 3]) -> Option<Instruction> {
        Some(match bytes {
            [0, 0, 0] => Instruction::Empty,
            [1, action, 0] => Instruction::Act(action),
            [2, target, unless] => Instruction::Goto { target, unless },
            [3, procedure, 0] => Instruction::Call(procedure),
            [4, 0, 0] => Instruction::End,
            _ => return None,
        })
    }
}

impl<Operand> Instruction<Operand> {
    /// The instruction with its operand, if it has one, in the form that `translate` gives it.
    pub(super) fn translated<Form, Failure>(
        self,
        translate: impl FnOnce(NameKind, Operand) -> Result<Form, Failure>,
    ) -> Result<Instruction<Form>, Failure> {
        Ok(match self {
            Instruction::Empty => Instruction::Empty,
            Instruction::Act(action) => Instruction::Act(translate(NameKind::Action, action)?),
            Instruction::Goto { target, unless } => Instruction::Goto {
                target,
                unless: translate(NameKind::Fact, unless)?,
            },
            Instruction::Call(callee) => Instruction::Call(translate(NameKind::Procedure, callee)?),
            Instruction::End => Instruction::End,
        })
    }

    /// Whether the instruction may stand on this line of a procedure with this last line.
    pub(super) fn allowed_on(&self, line: usize, last_line: u8) -> bool {
        match self {
            Instruction::Empty => true,
            Instruction::Act(_) | Instruction::Call(_) => line < last_line.into(),
            Instruction::Goto { target, .. } => line < last_line.into() && *target <= last_line,
            Instruction::End => line > 0,
        }
    }
}

/// As a listing has it, without the line's number.
impl<Operand: fmt::Display> fmt::Display for Instruction<Operand> {
    fn fmt(&self, f: &mut fmt::Formatter) -> fmt::Result {
        match self {
            Instruction::Empty => write!(f, "empty"),
            Instruction::Act(action) => write!(f, "act {action}"),
            Instruction::Goto { target, unless } => write!(f, "goto {target} unless {unless}"),
            Instruction::Call(procedure) => write!(f, "call {procedure}"),
            Instruction::End => write!(f, "end"),
        }
    }
}
