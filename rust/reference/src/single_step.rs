//! The single step: a caller's own run advanced by one instruction.
//! Answers 1 for a step made and 0 for a run already finished.

use crate::answer::{ask, at, Answer, Refusal};
use crate::program::Program;
use crate::run::Run;
use crate::task::Task;

pub fn step(task: &[u8], program: &[u8], run: &mut Run) -> Answer {
    advance(task, program, run).into()
}

fn advance(task_file: &[u8], code: &[u8], run: &mut Run) -> Result<u32, Refusal> {
    after_reading(task_file, code, run, |task, program, run| {
        if run.is_finished() {
            return Ok(0);
        }
        let steps_done = usize::from(run.steps);
        run.step(program, task).map_err(at(steps_done))?;
        Ok(1)
    })
}

/// Asks 1 to 9, 25 to 27 and 31, then goes on with the task and the program where they were read.
pub(crate) fn after_reading<T>(
    task_file: &[u8],
    code: &[u8],
    run: &mut Run,
    go_on: impl FnOnce(&Task, &Program, &mut Run) -> Result<T, Refusal>,
) -> Result<T, Refusal> {
    let mut task = Task::empty();
    task.read(task_file)?;
    let mut program = Program::EMPTY;
    program.read(code, &task)?;
    ask(31, run.is_possible(&task)).map_err(at(0))?;
    go_on(&task, &program, run)
}
