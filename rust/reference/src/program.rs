//! Planning programs: an instruction for every line of every procedure.
//! Read from bytes for a task (questions 25 to 27) and filled into a buffer.

use crate::answer::{ask, at, refuse, Refusal};
use crate::instruction::{Instruction, INSTRUCTION_BYTES};
use crate::run::Frame;
use crate::task::{Task, MAX_LINES, MAX_PROCEDURES};

/// Number of a frame's line among all lines that a program can have.
pub(crate) fn line_number([procedure, line]: Frame) -> u8 {
    procedure * MAX_LINES as u8 + line
}

/// The frame with this line number.
pub(crate) fn frame(line_number: u8) -> Frame {
    let height = MAX_LINES as u8;
    [line_number / height, line_number % height]
}

#[derive(Clone)]
pub(crate) struct Program {
    lines: [Instruction; MAX_LINES * MAX_PROCEDURES],
}

impl Program {
    pub const EMPTY: Program = Program {
        lines: [Instruction::Empty; MAX_LINES * MAX_PROCEDURES],
    };

    pub fn line(&self, frame: Frame) -> Instruction {
        self.lines[usize::from(line_number(frame))]
    }

    pub fn line_mut(&mut self, frame: Frame) -> &mut Instruction {
        &mut self.lines[usize::from(line_number(frame))]
    }

    /// The task's procedures, each with the lines it has there.
    pub fn procedures<'a>(&'a self, task: &Task) -> impl Iterator<Item = &'a [Instruction]> {
        let height = task.height();
        self.lines
            .chunks_exact(MAX_LINES)
            .take(usize::from(task.procedures))
            .map(move |lines| &lines[..height])
    }

    /// Reads a whole program in place.
    pub fn read(&mut self, bytes: &[u8], task: &Task) -> Result<(), Refusal> {
        ask(25, bytes.len() == task.program_size()).map_err(at(0))?;
        let mut changed_preset = None;
        let procedures = bytes.chunks_exact(task.height() * INSTRUCTION_BYTES);
        for (procedure, lines) in (0..).zip(procedures) {
            for (line, &code) in (0..).zip(lines.as_chunks().0) {
                let frame = [procedure, line];
                let instruction = Instruction::decode(code, line, task)
                    .ok_or_else(|| refuse(26, task.line_offset(frame)))?;
                let preset = task.presets.line(frame);
                if preset != Instruction::Empty && preset != instruction {
                    changed_preset.get_or_insert(frame);
                }
                *self.line_mut(frame) = instruction;
            }
        }
        match changed_preset {
            None => Ok(()),
            Some(frame) => Err(refuse(27, task.line_offset(frame))),
        }
    }

    /// Fills the first bytes of the buffer, which has room for them.
    pub fn fill(&self, buffer: &mut [u8], task: &Task) {
        let instructions = self.procedures(task).flatten();
        for (code, instruction) in buffer.as_chunks_mut().0.iter_mut().zip(instructions) {
            *code = instruction.encode();
        }
    }
}
