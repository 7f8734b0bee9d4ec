//! The plain Rust entries, each behind a call that is not inlined, so that none is fitted to an input.

use reference::{Answer, Run, StepsAnswer};

#[inline(never)]
pub fn check_task(task: &[u8]) -> Answer {
    reference::check_task(task)
}

#[inline(never)]
pub fn check_plan(task: &[u8], plan: &[u8], program: &mut [u8]) -> Answer {
    reference::check_plan(task, plan, program)
}

#[inline(never)]
pub fn write_plan(task: &[u8], program: &[u8], plan: &mut [u8]) -> Answer {
    reference::write_plan(task, program, plan)
}

#[inline(never)]
pub fn step(task: &[u8], program: &[u8], run: &mut Run) -> Answer {
    reference::step(task, program, run)
}

#[inline(never)]
pub fn steps(task: &[u8], program: &[u8], count: u64, run: &mut Run) -> StepsAnswer {
    reference::steps(task, program, count, run)
}

#[inline(never)]
pub fn add_case(buffer: &mut [u8], task_len: usize, case: [u64; 3], run: &Run) -> Answer {
    let [start, goal_true, goal_false] = case;
    reference::add_case(buffer, task_len, start, goal_true, goal_false, run)
}
