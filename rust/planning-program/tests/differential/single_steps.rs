//! A number of steps, made by as many single steps of the library.

use planning_program::raw::{step, Answer, Run, StepsAnswer};

use super::request::Outcome;

/// The most steps of one call.
const MOST: u64 = 4096;

/// What one call for so many steps has to give.
pub fn by_single_steps(task: &[u8], program: &[u8], count: u64, mut run: Run) -> Outcome {
    let most = count.min(MOST);
    let mut made = 0;
    let mut answer = asked_first(task, program, run);
    while answer.number == 0 && run.depth > 0 && u64::from(made) < most {
        answer = step(task, program, &mut run);
        made += u16::from(answer.number == 0);
    }
    let number = answer.number;
    let place = if number == 0 { 0 } else { answer.value };
    Outcome::of_steps(
        StepsAnswer {
            number,
            place,
            made,
        },
        run,
    )
}

/// The refusal, if there is one, by a question that is asked before no steps too. A single step of a copy asks it.
fn asked_first(task: &[u8], program: &[u8], mut run: Run) -> Answer {
    let answer = step(task, program, &mut run);
    match answer.number {
        1..=9 | 25..=27 | 31 => answer,
        _ => Answer {
            number: 0,
            value: 0,
        },
    }
}
