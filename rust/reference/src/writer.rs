//! The writer: runs a program on all cases and writes the plan of that run.
//! The lines run are kept until the finish, so that a refusal leaves the caller's buffer alone.

use crate::answer::{at, refuse, Answer, Refusal};
use crate::instruction::Instruction;
use crate::program::{frame, line_number, Program};
use crate::records::{head, CLOSING, CLOSING_BYTES, REPEAT, WRITE};
use crate::run::{Frame, Run};
use crate::task::{Task, MAX_STEPS};

const STEP_BYTES: usize = 9;

pub fn write_plan(task: &[u8], program: &[u8], plan: &mut [u8]) -> Answer {
    write(task, program, plan).into()
}

fn write(task_file: &[u8], code: &[u8], plan: &mut [u8]) -> Result<u32, Refusal> {
    let mut task = Task::empty();
    task.read(task_file)?;
    let mut program = Program::EMPTY;
    program.read(code, &task)?;
    let mut lines_run = [0; MAX_STEPS];
    let mut run = Run::start(&task);
    while !run.is_finished() {
        let line = line_number(run.top());
        let steps_done = usize::from(run.steps);
        run.step(&program, &task).map_err(at(steps_done))?;
        lines_run[steps_done] = line;
    }
    let lines_run = &lines_run[..usize::from(run.steps)];
    let size = STEP_BYTES * lines_run.len() + CLOSING_BYTES;
    let needed = plan.get_mut(..size).ok_or_else(|| refuse(29, size))?;
    fill(needed, lines_run, &program, &task);
    Ok(run.steps.into())
}

/// Writes the steps and the closing record into a buffer of just their size.
fn fill(plan: &mut [u8], lines_run: &[u8], program: &Program, task: &Task) {
    let mut written = task.presets.clone();
    let (steps, closing) = plan.split_at_mut(STEP_BYTES * lines_run.len());
    for (record, &line) in steps.as_chunks_mut().0.iter_mut().zip(lines_run) {
        let frame = frame(line);
        let instruction = program.line(frame);
        let held = written.line_mut(frame);
        let kind = if *held == Instruction::Empty {
            WRITE
        } else {
            REPEAT
        };
        *held = instruction;
        *record = step_record(kind, frame, instruction);
    }
    closing.copy_from_slice(&head(0, CLOSING));
}

fn step_record(kind: u16, frame: Frame, instruction: Instruction) -> [u8; STEP_BYTES] {
    let [length, zero, kind, high] = head(5, kind);
    let [procedure, line] = frame;
    let [op, p, q] = instruction.encode();
    [length, zero, kind, high, procedure, line, op, p, q]
}
