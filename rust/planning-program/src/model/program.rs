//! A program: the lines of each procedure, and their bytes.

use super::instruction::Instruction;
use super::mistake::{in_range, Mistake};
use super::names::Names;

/// The lines of a procedure in names, from line 0 on.
#[derive(Clone, Debug, PartialEq, Eq)]
pub struct Procedure {
    name: String,
    lines: Vec<Instruction<String>>,
}

/// The procedure with this name, its lines from line 0 on. Lines that are not given stay open.
pub fn procedure(
    name: impl Into<String>,
    lines: impl IntoIterator<Item = Instruction<String>>,
) -> Procedure {
    Procedure {
        name: name.into(),
        lines: lines.into_iter().collect(),
    }
}

/// The lines of all procedures, with numbers.
///
/// ```
/// use planning_program::model::{Instruction, Program};
///
/// let bytes = [2, 2, 0, 1, 0, 0, 4, 0, 0];
/// let program = Program::from_bytes(&bytes, 2).unwrap();
/// assert_eq!(program.line(0, 0), Some(Instruction::Goto { target: 2, unless: 0 }));
/// assert_eq!(program.bytes(), bytes);
/// ```
#[derive(Clone, Debug, PartialEq, Eq)]
pub struct Program {
    /// The lines of each procedure, equally many of each.
    procedures: Vec<Vec<Instruction>>,
}

impl Program {
    /// A program whose lines, 0 to `last_line` of each procedure, are all empty.
    pub fn empty(procedures: usize, last_line: u8) -> Program {
        let lines = vec![Instruction::Empty; usize::from(last_line) + 1];
        Program {
            procedures: vec![lines; procedures],
        }
    }

    /// The program in these bytes: those of whole procedures with this last line, each line an instruction.
    pub fn from_bytes(bytes: &[u8], last_line: u8) -> Option<Program> {
        let (lines, rest) = bytes.as_chunks();
        let lines: Vec<Instruction> = lines
            .iter()
            .map(|&line| Instruction::from_bytes(line))
            .collect::<Option<_>>()?;
        let procedures = lines.chunks_exact(usize::from(last_line) + 1);
        let whole = rest.is_empty() && procedures.remainder().is_empty();
        whole.then(|| Program {
            procedures: procedures.map(<[Instruction]>::to_vec).collect(),
        })
    }

    /// Three bytes for each line, procedure by procedure.
    pub fn bytes(&self) -> Vec<u8> {
        let lines = self.procedures.iter().flatten();
        lines.flat_map(|line| line.bytes()).collect()
    }

    /// The instruction on a line of a procedure, if there is such a line.
    pub fn line(&self, procedure: u8, line: u8) -> Option<Instruction> {
        let lines = self.procedures.get(usize::from(procedure))?;
        lines.get(usize::from(line)).copied()
    }

    /// Every line in order: its procedure, its number and its instruction.
    pub fn lines(&self) -> impl Iterator<Item = (u8, u8, Instruction)> + '_ {
        (0..).zip(&self.procedures).flat_map(|(procedure, lines)| {
            (0..)
                .zip(lines)
                .map(move |(line, &instruction)| (procedure, line, instruction))
        })
    }

    /// The lines that are not empty.
    pub(super) fn written_lines(&self) -> impl Iterator<Item = (u8, u8, Instruction)> + '_ {
        self.lines()
            .filter(|(_, _, instruction)| *instruction != Instruction::Empty)
    }

    /// Puts the lines of a procedure in their places, each of which has to be empty.
    pub(super) fn fill(&mut self, procedure: &Procedure, names: &Names) -> Result<(), Mistake> {
        let place = format!("procedure `{}`", procedure.name);
        let number = names
            .procedures
            .find(&procedure.name, "the program's lines")?;
        let lines = &mut self.procedures[usize::from(number)];
        in_range(
            format!("{place}: lines"),
            procedure.lines.len(),
            0..=lines.len(),
        )?;
        let last_line = (lines.len() - 1) as u8;
        for (line, instruction) in procedure.lines.iter().enumerate() {
            let place = format!("{place}, line {line}");
            if !instruction.allowed_on(line, last_line) {
                return Err(Mistake::NotAllowed {
                    instruction: instruction.to_string(),
                    place,
                });
            }
            let instruction = names.numbered(instruction, &place)?;
            if instruction == Instruction::Empty {
                continue;
            }
            if lines[line] != Instruction::Empty {
                return Err(Mistake::LineTwice { place });
            }
            lines[line] = instruction;
        }
        Ok(())
    }
}
