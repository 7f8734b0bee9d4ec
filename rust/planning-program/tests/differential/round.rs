//! One round: a task with a program and its plan, and requests about these, sound and damaged.

use planning_program::raw::Run;

use super::caller::Caller;
use super::changes::changed;
use super::late_cases::{in_buffer, new_case, with_more_cases};
use super::positions::{break_one, possible};
use super::random::Random;
use super::samples::{full_size, sample, Sample};
use super::task::{record, Task};
use super::{plan_damage, program_damage, task_damage};

pub fn round(caller: &mut Caller) {
    let sample = if caller.random.one_in(200) {
        full_size(&mut caller.random)
    } else {
        sample(&mut caller.random)
    };
    caller.check_task(&sample.file);
    let (draft_task, draft_program) = &sample.draft;
    write_and_check(caller, &sample, draft_task, draft_program);
    ask_steps_from(caller, &sample, draft_task, draft_program, sample.run[0]);
    let plan = write_and_check(caller, &sample, &sample.file, &sample.program);
    let plan = plan.unwrap_or(record(5, &[]));
    for _ in 0..8 {
        ask_damaged_task(caller, &sample, &plan);
        ask_pairs(caller, &sample);
        ask_damaged_program(caller, &sample);
        ask_damaged_plan(caller, &sample, &plan);
        ask_steps(caller, &sample, &sample.file, &sample.program);
        ask_meeting(caller, &sample);
        for _ in 0..2 {
            ask_late_case(caller, &sample);
        }
    }
    for _ in 0..4 {
        ask_changed_task(caller, &sample, &plan);
    }
}

fn ask_damaged_task(caller: &mut Caller, sample: &Sample, plan: &[u8]) {
    let task = task_damage::damaged(&mut caller.random, &sample.task);
    caller.check_task(&task);
    match caller.random.below(12) {
        0 => caller.check_plan(&task, plan, sample.program.len()),
        1 => {
            write_and_check(caller, sample, &task, &sample.program);
        }
        2 => ask_steps(caller, sample, &task, &sample.program),
        3 => {
            let run = position(&mut caller.random, &sample.task, &sample.run);
            add_case(caller, &sample.task, &task, run);
        }
        _ => {}
    }
}

/// The pairs of an action, in one of three with two bits changed.
fn ask_pairs(caller: &mut Caller, sample: &Sample) {
    let (task, random) = (&sample.task, &mut caller.random);
    let mut body = task.actions[random.below(task.actions.len())].body();
    if random.one_in(3) {
        for _ in 0..2 {
            let at = random.below(body.len());
            body[at] ^= 1 << random.below(8);
        }
    }
    caller.pairs_before_fault(task.bounds.facts, &body);
}

fn ask_damaged_program(caller: &mut Caller, sample: &Sample) {
    let program = program_damage::damaged(&mut caller.random, &sample.task, &sample.program);
    write_and_check(caller, sample, &sample.file, &program);
    if caller.random.one_in(4) {
        ask_steps(caller, sample, &sample.file, &program);
    }
}

fn ask_damaged_plan(caller: &mut Caller, sample: &Sample, plan: &[u8]) {
    let plan = plan_damage::damaged(&mut caller.random, &sample.task, plan);
    caller.check_plan(&sample.file, &plan, sample.program.len());
}

/// The sample's plan and program under a task that is not quite the sample's.
fn ask_changed_task(caller: &mut Caller, sample: &Sample, plan: &[u8]) {
    let task = changed(&mut caller.random, &sample.task, &sample.program).file();
    caller.check_task(&task);
    caller.check_plan(&task, plan, sample.program.len());
    write_and_check(caller, sample, &task, &sample.program);
    ask_steps(caller, sample, &task, &sample.program);
}

/// A single step and a number of steps, each from a position of its own.
fn ask_steps(caller: &mut Caller, sample: &Sample, task: &[u8], program: &[u8]) {
    let run = position(&mut caller.random, &sample.task, &sample.run);
    caller.step(task, program, run);
    let run = position(&mut caller.random, &sample.task, &sample.run);
    ask_steps_from(caller, sample, task, program, run);
}

/// A single step of the run that raises a fact by one effect and lowers it by another, if there is one.
fn ask_meeting(caller: &mut Caller, sample: &Sample) {
    let meetings = sample.meetings();
    if !meetings.is_empty() {
        let (run, both) = caller.random.pick(&meetings);
        caller.meet(&sample.file, &sample.program, run, both);
    }
}

/// A position of the run or another, one in four of them not possible.
fn position(random: &mut Random, task: &Task, run: &[Run]) -> Run {
    let mut position = match random.below(8) {
        0 => run[run.len() - 1],
        1..=4 => random.pick(run),
        _ => possible(random, task),
    };
    if random.one_in(4) {
        break_one(random, task, &mut position);
    }
    position
}

/// A case for the sample's task, or for it with more cases. Where it is added under a position of the sample's run, the same steps have to
/// lead there in the longer task.
fn ask_late_case(caller: &mut Caller, sample: &Sample) {
    let task = with_more_cases(&mut caller.random, &sample.task);
    let run = position(&mut caller.random, &task, &sample.run);
    let longer = add_case(caller, &task, &task.file(), run);
    let of_the_run = sample.run.get(usize::from(run.steps)) == Some(&run);
    if let (Some(longer), true) = (longer, of_the_run) {
        caller.reach(&longer, &sample.program, sample.run[0], run);
    }
}

/// The longer file, if the case is added. The file is the task's, or a damaged one.
fn add_case(caller: &mut Caller, task: &Task, file: &[u8], run: Run) -> Option<Vec<u8>> {
    let (buffer, len) = in_buffer(&mut caller.random, file);
    let case = new_case(&mut caller.random, &task.bounds);
    caller.add_case(&buffer, len, case, run)
}

fn ask_steps_from(caller: &mut Caller, sample: &Sample, task: &[u8], program: &[u8], run: Run) {
    let count = count(&mut caller.random, sample, &run);
    caller.steps(task, program, count, run);
}

/// How many steps to ask for: a few, forty, about as many as are left to the finish or to the bound, or about the most in a call and more.
fn count(random: &mut Random, sample: &Sample, run: &Run) -> u64 {
    let finish = sample.run[sample.run.len() - 1].steps;
    let left = random.pick(&[finish, sample.task.bounds.steps]);
    let left = u64::from(left.saturating_sub(run.steps));
    match random.below(4) {
        0 => random.pick(&[0, 1, 2]),
        1 => random.below(12) as u64,
        2 => random.pick(&[left.saturating_sub(1), left, left + 1]),
        _ => random.pick(&[40, 4095, 4096, 4097, 1 << 16, 1 << 32, u64::MAX]),
    }
}

/// The plan that is written, if one is; it is checked then.
fn write_and_check(
    caller: &mut Caller,
    sample: &Sample,
    task: &[u8],
    program: &[u8],
) -> Option<Vec<u8>> {
    let steps = sample.run.len() - 1;
    let plan = caller.write_plan(task, program, 9 * steps + 4)?;
    caller.check_plan(task, &plan, sample.program.len());
    Some(plan)
}
