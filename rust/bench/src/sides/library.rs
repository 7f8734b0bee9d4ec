//! The proved library's entries, each behind a call that is not inlined.

use planning_program::raw;
use reference::{Answer, Run, StepsAnswer};
use std::mem::offset_of;

#[inline(never)]
pub fn check_task(task: &[u8]) -> Answer {
    answer(raw::check_task(task))
}

#[inline(never)]
pub fn check_plan(task: &[u8], plan: &[u8], program: &mut [u8]) -> Answer {
    answer(raw::check_plan(task, plan, program))
}

#[inline(never)]
pub fn write_plan(task: &[u8], program: &[u8], plan: &mut [u8]) -> Answer {
    answer(raw::write_plan(task, program, plan))
}

#[inline(never)]
pub fn step(task: &[u8], program: &[u8], run: &mut Run) -> Answer {
    answer(raw::step(task, program, record(run)))
}

#[inline(never)]
pub fn steps(task: &[u8], program: &[u8], count: u64, run: &mut Run) -> StepsAnswer {
    let raw::StepsAnswer {
        number,
        place,
        made,
    } = raw::steps(task, program, count, record(run));
    StepsAnswer {
        number,
        place,
        made,
    }
}

#[inline(never)]
pub fn add_case(buffer: &mut [u8], task_len: usize, case: [u64; 3], run: &Run) -> Answer {
    let [start, goal_true, goal_false] = case;
    let run: *const Run = run;
    // SAFETY: as for `record`.
    let run = unsafe { &*run.cast::<raw::Run>() };
    answer(raw::add_case(
        buffer, task_len, start, goal_true, goal_false, run,
    ))
}

/// The same record in the library's type.
fn record(run: &mut Run) -> &mut raw::Run {
    let run: *mut Run = run;
    // SAFETY: the record stays borrowed, and both types have the same fields at the same places, as is asserted below.
    unsafe { &mut *run.cast::<raw::Run>() }
}

const _: () = assert!(
    size_of::<Run>() == size_of::<raw::Run>()
        && align_of::<Run>() == align_of::<raw::Run>()
        && offset_of!(Run, facts) == offset_of!(raw::Run, facts)
        && offset_of!(Run, steps) == offset_of!(raw::Run, steps)
        && offset_of!(Run, case) == offset_of!(raw::Run, case)
        && offset_of!(Run, depth) == offset_of!(raw::Run, depth)
        && offset_of!(Run, frames) == offset_of!(raw::Run, frames)
);

fn answer(answer: raw::Answer) -> Answer {
    Answer {
        number: answer.number,
        value: answer.value,
    }
}
