//! The checker: follows a plan from the preset lines and reads off its program.
//! Questions 10 to 24; the caller's buffer is filled only once the plan is accepted.

use crate::answer::{ask, at, refuse, Answer, Question, Refusal};
use crate::instruction::Instruction;
use crate::program::Program;
use crate::records::{Record, Records, CLOSING, REPEAT, WRITE};
use crate::run::Run;
use crate::task::Task;

pub fn check_plan(task: &[u8], plan: &[u8], program: &mut [u8]) -> Answer {
    check(task, plan, program).into()
}

fn check(task_file: &[u8], plan: &[u8], buffer: &mut [u8]) -> Result<u32, Refusal> {
    let mut task = Task::empty();
    task.read(task_file)?;
    ask(10, buffer.len() >= task.program_size()).map_err(at(0))?;
    let mut program = task.presets.clone();
    let steps = follow_plan(&task, plan, &mut program)?;
    program.fill(buffer, &task);
    Ok(steps)
}

/// Follows the whole plan, adding the lines it writes, and gives its number of steps.
pub(crate) fn follow_plan(task: &Task, plan: &[u8], program: &mut Program) -> Result<u32, Refusal> {
    let mut checker = Checker {
        task,
        program,
        run: Run::start(task),
    };
    let mut records = Records::new(plan);
    let mut closed = false;
    while !closed {
        let place = records.offset();
        let record = records.next_record().ok_or_else(|| refuse(11, place))?;
        closed = checker.follow_record(record).map_err(at(place))?;
    }
    ask(24, records.at_end()).map_err(at(records.offset()))?;
    Ok(checker.run.steps.into())
}

struct Checker<'a> {
    task: &'a Task<'a>,
    program: &'a mut Program,
    run: Run,
}

impl Checker<'_> {
    /// Makes a step, or answers true on a closing record.
    fn follow_record(&mut self, record: Record) -> Result<bool, Question> {
        match record.kind {
            WRITE | REPEAT => {
                let step = record.body.try_into().map_err(|_| 13u32)?;
                self.follow_step(record.kind == WRITE, step)?;
                Ok(false)
            }
            CLOSING => {
                ask(13, record.body.is_empty())?;
                ask(23, self.run.is_finished())?;
                Ok(true)
            }
            _ => Err(12),
        }
    }

    fn follow_step(&mut self, writes: bool, step: [u8; 5]) -> Result<(), Question> {
        ask(14, self.run.steps < self.task.step_bound)?;
        let instruction = self.task.instruction(step).ok_or(15u32)?;
        ask(16, !self.run.is_finished())?;
        let frame = [step[0], step[1]];
        ask(17, frame == self.run.top())?;
        let held = self.program.line_mut(frame);
        if writes {
            ask(18, *held == Instruction::Empty)?;
            *held = instruction;
        } else {
            ask(18, *held == instruction)?;
        }
        self.run.execute(instruction, self.task)
    }
}
