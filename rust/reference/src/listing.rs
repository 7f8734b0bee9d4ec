//! The listing: what the program prints for the bytes of a task file and a plan file.
//! Question 30 comes before all others.

use crate::answer::{ask, at, Answer, Refusal};
use crate::checker::follow_plan;
use crate::program::Program;
use crate::task::Task;
use std::fmt::{self, Write};

const MAX_FILE_BYTES: usize = 65_536;

pub fn print_check(task: &[u8], plan: &[u8]) -> String {
    list_accepted(task, plan).unwrap_or_else(|refusal| {
        let Answer { number, value } = Err(refusal).into();
        format!("refused {number} {value}\n")
    })
}

fn list_accepted(task_file: &[u8], plan: &[u8]) -> Result<String, Refusal> {
    let both_fit = task_file.len() <= MAX_FILE_BYTES && plan.len() <= MAX_FILE_BYTES;
    ask(30, both_fit).map_err(at(MAX_FILE_BYTES))?;
    let mut task = Task::empty();
    task.read(task_file)?;
    let mut program = task.presets.clone();
    let steps = follow_plan(&task, plan, &mut program)?;
    let mut out = format!("accepted {steps}\n");
    list_program(&mut out, &program, &task).expect("a string takes every line");
    Ok(out)
}

fn list_program(out: &mut String, program: &Program, task: &Task) -> fmt::Result {
    for (procedure, lines) in program.procedures(task).enumerate() {
        writeln!(out, "procedure {procedure}")?;
        for (line, instruction) in lines.iter().enumerate() {
            writeln!(out, "{line} {instruction}")?;
        }
    }
    Ok(())
}
