//! Positions: those of real runs, others that are possible, and some that are not.

use planning_program::raw::Run;

use super::entries::REFERENCE;
use super::random::Random;
use super::task::{Task, MOST};

/// The positions of a program's run, the last one where no more steps are made; and 0 if it is finished there, or else the question.
pub fn run(task: &Task, program: &[u8]) -> (Vec<Run>, u32) {
    let file = task.file();
    let mut position = Run {
        facts: task.cases[0].start,
        steps: 0,
        case: 0,
        depth: 1,
        frames: [[0; 2]; 16],
    };
    let mut positions = vec![position];
    // The bound is for a reference at fault, whose run may never stop.
    while position.depth > 0 && positions.len() <= MOST.steps.into() {
        let answer = (REFERENCE.step)(&file, program, &mut position);
        if answer.number != 0 {
            return (positions, answer.number);
        }
        positions.push(position);
    }
    (positions, 0)
}

/// The top frame of a position that is not finished.
pub fn top(run: &Run) -> [u8; 2] {
    run.frames[usize::from(run.depth) - 1]
}

/// Any possible position, whether or not a run gets there.
pub fn possible(random: &mut Random, task: &Task) -> Run {
    let bounds = &task.bounds;
    let steps = random.below(usize::from(bounds.steps) + 1) as u16;
    let mut run = Run {
        facts: random.some_of(bounds.all_facts()),
        steps: random.pick(&[steps, steps, steps, bounds.steps]),
        case: task.cases.len() as u8,
        depth: 0,
        frames: [[0; 2]; 16],
    };
    if !random.one_in(8) {
        run.case = random.below(task.cases.len()) as u8;
        let depth = random.size(bounds.frames.min(2), bounds.frames);
        push_to(random, task, &mut run, depth);
    }
    run
}

/// Fills the stack with any frames up to this depth.
fn push_to(random: &mut Random, task: &Task, run: &mut Run, depth: u8) {
    for frame in &mut run.frames[run.depth.into()..depth.into()] {
        *frame = random.line(&task.bounds).into();
    }
    run.depth = depth;
}

/// Breaks one condition of a possible position, if this one can be broken.
pub fn break_one(random: &mut Random, task: &Task, run: &mut Run) {
    let bounds = &task.bounds;
    let cases = task.cases.len() as u8;
    match random.below(9) {
        0 => run.case = random.at_least(cases + 1),
        1 if run.depth > 0 => run.case = cases,
        1 => run.case = random.between(0, cases - 1),
        2 => (run.depth, run.frames) = (0, [[0; 2]; 16]),
        3 if bounds.facts < MOST.facts => run.facts |= 1 << random.between(bounds.facts, 63),
        4 => run.steps = random.pick(&[bounds.steps + 1, u16::MAX]),
        5 if run.depth > 0 && bounds.frames < MOST.frames => {
            push_to(random, task, run, bounds.frames + 1);
        }
        5 => run.depth = random.pick(&[17, 255, bounds.frames + 1]),
        _ => break_frame(random, task, run),
    }
}

/// Takes a frame out of its range: in use with a procedure or a line too high, or not in use and not (0, 0).
fn break_frame(random: &mut Random, task: &Task, run: &mut Run) {
    let bounds = &task.bounds;
    let used = usize::from(run.depth);
    let frame = if used > 0 && random.one_in(2) {
        random.below(used)
    } else {
        random.below(16)
    };
    let part = random.below(2);
    let first = match part {
        _ if frame >= used => 1,
        0 => bounds.procedures,
        _ => bounds.last_line + 1,
    };
    run.frames[frame][part] = random.at_least(first);
}
