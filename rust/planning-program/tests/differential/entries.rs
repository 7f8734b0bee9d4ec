//! The six entries and the pairs of an action, of the proved library and of the reference, with the same types.

use planning_program::raw::{self, Answer, Run, StepsAnswer};

use super::pairs;
use super::task::{Case, Pair};

/// An entry over a task, another file and a buffer that it may fill.
type FillEntry = fn(&[u8], &[u8], &mut [u8]) -> Answer;

pub struct Entries {
    pub check_task: fn(&[u8]) -> Answer,
    pub pairs_before_fault: fn(u8, &[u8]) -> usize,
    pub check_plan: FillEntry,
    pub write_plan: FillEntry,
    pub step: fn(&[u8], &[u8], &mut Run) -> Answer,
    pub steps: fn(&[u8], &[u8], u64, &mut Run) -> StepsAnswer,
    pub add_case: fn(&mut [u8], usize, Case, &Run) -> Answer,
}

pub const LIBRARY: Entries = Entries {
    check_task: raw::check_task,
    pairs_before_fault: pairs::pairs_before_fault,
    check_plan: raw::check_plan,
    write_plan: raw::write_plan,
    step: raw::step,
    steps: raw::steps,
    add_case: |buffer, task_len, Case { start, goal }, run| {
        let Pair(goal_true, goal_false) = goal;
        raw::add_case(buffer, task_len, start, goal_true, goal_false, run)
    },
};

pub const REFERENCE: Entries = Entries {
    check_task: |task| answer(reference::check_task(task)),
    pairs_before_fault: reference::pairs_before_fault,
    check_plan: |task, plan, buffer| answer(reference::check_plan(task, plan, buffer)),
    write_plan: |task, program, buffer| answer(reference::write_plan(task, program, buffer)),
    step: |task, program, run| answer(on_own(run, |own| reference::step(task, program, own))),
    steps: reference_steps,
    add_case: |buffer, task_len, Case { start, goal }, run| {
        let (Pair(goal_true, goal_false), run) = (goal, &own(run));
        answer(reference::add_case(
            buffer, task_len, start, goal_true, goal_false, run,
        ))
    },
};

fn answer(answer: reference::Answer) -> Answer {
    Answer {
        number: answer.number,
        value: answer.value,
    }
}

fn reference_steps(task: &[u8], program: &[u8], count: u64, run: &mut Run) -> StepsAnswer {
    let answer = on_own(run, |own| reference::steps(task, program, count, own));
    StepsAnswer {
        number: answer.number,
        place: answer.place,
        made: answer.made,
    }
}

/// The record in the reference's own type.
fn own(run: &Run) -> reference::Run {
    reference::Run {
        facts: run.facts,
        steps: run.steps,
        case: run.case,
        depth: run.depth,
        frames: run.frames,
    }
}

/// Lends the reference a record of its own type, and takes over what it has afterwards.
fn on_own<T>(run: &mut Run, entry: impl FnOnce(&mut reference::Run) -> T) -> T {
    let mut own = own(run);
    let answer = entry(&mut own);
    *run = Run {
        facts: own.facts,
        steps: own.steps,
        case: own.case,
        depth: own.depth,
        frames: own.frames,
    };
    answer
}
