//! A plan's steps and its bytes.

use super::instruction::Instruction;
use crate::records::{kind, push_record, split_record, Record};
use std::fmt;

/// What a step does besides running its line.
#[derive(Clone, Copy, Debug, PartialEq, Eq)]
pub enum StepKind {
    /// Writes the line first.
    Write,
    /// Nothing: the line holds the instruction already.
    Repeat,
}

impl fmt::Display for StepKind {
    fn fmt(&self, f: &mut fmt::Formatter) -> fmt::Result {
        f.write_str(match self {
            StepKind::Write => "write",
            StepKind::Repeat => "repeat",
        })
    }
}

/// One step of a plan.
#[derive(Clone, Copy, Debug, PartialEq, Eq)]
pub struct Step {
    /// Whether the line is written or repeated.
    pub kind: StepKind,
    /// The procedure of the line.
    pub procedure: u8,
    /// The line.
    pub line: u8,
    /// The instruction that is run.
    pub instruction: Instruction,
}

/// The plan file with these steps.
///
/// ```
/// use planning_program::model::{plan_bytes, steps_of, Instruction, Step, StepKind};
///
/// let step = Step { kind: StepKind::Write, procedure: 0, line: 1, instruction: Instruction::Act(0) };
/// let plan = plan_bytes(&[step]);
/// assert_eq!(plan, [5, 0, 16, 0, 0, 1, 1, 0, 0, 0, 0, 5, 0]);
/// assert_eq!(steps_of(&plan), Some(vec![step]));
/// ```
pub fn plan_bytes(steps: &[Step]) -> Vec<u8> {
    let mut file = Vec::new();
    for step in steps {
        let kind = match step.kind {
            StepKind::Write => kind::WRITE,
            StepKind::Repeat => kind::REPEAT,
        };
        let [op, p, q] = step.instruction.bytes();
        push_record(&mut file, kind, &[step.procedure, step.line, op, p, q]);
    }
    push_record(&mut file, kind::CLOSING, &[]);
    file
}

/// The steps of a plan file, if it has the form of one: step records, each with an instruction, and the closing record at the end.
/// Why another file is refused, and whether the steps can be made, is for the checker to say.
pub fn steps_of(plan: &[u8]) -> Option<Vec<Step>> {
    let mut steps = Vec::new();
    let mut rest = plan;
    loop {
        let (record, behind) = split_record(rest)?;
        if record == (kind::CLOSING, &[]) {
            return behind.is_empty().then_some(steps);
        }
        steps.push(step_of(record)?);
        rest = behind;
    }
}

/// The step in one record.
fn step_of((kind, body): Record) -> Option<Step> {
    let kind = match kind {
        kind::WRITE => StepKind::Write,
        kind::REPEAT => StepKind::Repeat,
        _ => return None,
    };
    let &[procedure, line, op, p, q] = body else {
        return None;
    };
    let instruction = Instruction::from_bytes([op, p, q])?;
    (instruction != Instruction::Empty).then_some(Step {
        kind,
        procedure,
        line,
        instruction,
    })
}
