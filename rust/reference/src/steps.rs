//! A number of steps: a caller's own run advanced in place, up to the finish or a refusal.
//! Task and program are read once. The steps made before a refusal stay made.

use crate::answer::{at, Refusal, StepsAnswer};
use crate::run::Run;
use crate::single_step::after_reading;

/// The most steps of one call.
const MOST: u64 = 4096;

/// A count above 4,096 counts as 4,096.
pub fn steps(task: &[u8], program: &[u8], count: u64, run: &mut Run) -> StepsAnswer {
    let before = run.steps;
    let result = advance(task, program, count.min(MOST), run);
    StepsAnswer::new(result, run.steps - before)
}

fn advance(task_file: &[u8], code: &[u8], count: u64, run: &mut Run) -> Result<(), Refusal> {
    after_reading(task_file, code, run, |task, program, run| {
        for _ in 0..count {
            if run.is_finished() {
                break;
            }
            run.step(program, task).map_err(at(run.steps.into()))?;
        }
        Ok(())
    })
}
