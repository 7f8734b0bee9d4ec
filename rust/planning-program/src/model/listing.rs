//! Programs and plans as text, with the names.

use super::instruction::Instruction;
use super::names::{NameList, Names};
use super::plan::Step;
use super::program::Program;

/// The program's lines, procedure by procedure.
pub(super) fn program_listing(names: &Names, program: &Program) -> String {
    let mut text = String::new();
    for (procedure, line, instruction) in program.lines() {
        if line == 0 {
            text += &format!(
                "procedure {procedure} {}\n",
                name_in(&names.procedures, procedure)
            );
        }
        text += &format!("{line} {}\n", instruction_text(names, instruction));
    }
    text
}

/// The plan's steps, one on each line.
pub(super) fn plan_listing(names: &Names, steps: &[Step]) -> String {
    let shown = steps.iter().map(|step| {
        let procedure = name_in(&names.procedures, step.procedure);
        let instruction = instruction_text(names, step.instruction);
        format!("{} {procedure} {} {instruction}\n", step.kind, step.line)
    });
    shown.collect()
}

fn instruction_text(names: &Names, instruction: Instruction) -> String {
    match names.named(instruction) {
        Some(named) => named.to_string(),
        None => instruction.to_string(),
    }
}

/// The name with this number, or the number itself where no name has it.
fn name_in(names: &NameList, number: u8) -> String {
    match names.name(number) {
        Some(name) => name.to_string(),
        None => number.to_string(),
    }
}
