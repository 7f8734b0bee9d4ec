//! Instructions: three bytes op, p, q, decoded for the line on which they stand.
//! Act, goto and call never stand on the last line, an end never on line 0.

use crate::task::Task;
use std::fmt;

pub(crate) const INSTRUCTION_BYTES: usize = 3;

#[derive(Clone, Copy, PartialEq, Eq)]
pub(crate) enum Instruction {
    Empty,
    Act { action: u8 },
    Goto { target: u8, fact: u8 },
    Call { procedure: u8 },
    End,
}

use Instruction::{Act, Call, Empty, End, Goto};

impl Instruction {
    /// `None` if the instruction is not allowed on this line.
    pub fn decode(code: [u8; INSTRUCTION_BYTES], line: u8, task: &Task) -> Option<Self> {
        let last_line = task.last_line;
        if line > last_line {
            return None;
        }
        let before_last = line < last_line;
        match code {
            [0, 0, 0] => Some(Empty),
            [1, action, 0] if before_last && usize::from(action) < task.action_count => {
                Some(Act { action })
            }
            [2, target, fact] if before_last && target <= last_line && fact < task.facts => {
                Some(Goto { target, fact })
            }
            [3, procedure, 0] if before_last && procedure < task.procedures => {
                Some(Call { procedure })
            }
            [4, 0, 0] if line > 0 => Some(End),
            _ => None,
        }
    }

    pub fn encode(self) -> [u8; INSTRUCTION_BYTES] {
        match self {
            Empty => [0, 0, 0],
            Act { action } => [1, action, 0],
            Goto { target, fact } => [2, target, fact],
            Call { procedure } => [3, procedure, 0],
            End => [4, 0, 0],
        }
    }
}

impl fmt::Display for Instruction {
    fn fmt(&self, out: &mut fmt::Formatter) -> fmt::Result {
        match self {
            Empty => write!(out, "empty"),
            Act { action } => write!(out, "act {action}"),
            Goto { target, fact } => write!(out, "goto {target} {fact}"),
            Call { procedure } => write!(out, "call {procedure}"),
            End => write!(out, "end"),
        }
    }
}
