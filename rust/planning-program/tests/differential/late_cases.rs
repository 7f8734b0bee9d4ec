//! What a late case is asked with: a task in a buffer, its length and the sets of the case, each sound or aimed at a question.

use planning_program::CASE_LEN;

use super::random::Random;
use super::task::{Bounds, Case, Task, CASES};
use super::task_damage::break_sets;

/// The task, now and then with as many cases as there may be or with one less. Steps lead from its start to the same open positions.
pub fn with_more_cases(random: &mut Random, task: &Task) -> Task {
    let mut task = task.clone();
    if random.one_in(8) {
        let count = usize::from(CASES) - random.below(2);
        let case = random.pick(&task.cases);
        task.cases.resize(count.max(task.cases.len()), case);
    }
    task
}

/// The task in a buffer, mostly one with room for a case, and its length, mostly the true one. Any greater length than the buffer's counts as
/// the buffer's.
pub fn in_buffer(random: &mut Random, task: &[u8]) -> (Vec<u8>, usize) {
    let spare = match random.below(16) {
        0 => random.below(CASE_LEN),
        1 => CASE_LEN - 1,
        2..=7 => CASE_LEN + random.below(40),
        _ => CASE_LEN,
    };
    let buffer = [task, &random.bytes(spare)].concat();
    let len = match random.below(16) {
        0 => random.below(task.len() + 1),
        1 => random.pick(&[buffer.len(), buffer.len() + 1, usize::MAX]),
        _ => task.len(),
    };
    (buffer, len)
}

/// A case, one in eight of them with a fact that the task has not, or with a goal that names a fact twice.
pub fn new_case(random: &mut Random, bounds: &Bounds) -> Case {
    let facts = bounds.all_facts();
    let mut case = Case {
        start: random.some_of(facts),
        goal: random.any_pair(facts),
    };
    if random.one_in(8) {
        break_sets(random, bounds, &mut case.start, &mut case.goal);
    }
    case
}
