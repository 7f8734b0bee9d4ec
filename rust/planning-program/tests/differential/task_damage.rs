//! Damage to a task, mostly aimed at one of its questions.

use super::damage::{self, change_length, records};
use super::instructions::{allowed, disallowed};
use super::random::Random;
use super::task::{Bounds, Pair, Preset, Task, ACTIONS, CASES, EFFECTS, EMPTY, END, MOST};

/// The damaged task's file.
pub fn damaged(random: &mut Random, task: &Task) -> Vec<u8> {
    let mut task = task.clone();
    match random.below(16) {
        0 | 1 => break_bounds(random, &mut task),
        2 => task.bounds.facts = random.between(1, task.bounds.facts),
        3 | 4 => break_set(random, &mut task),
        5 | 6 => add_wrong_preset(random, &mut task),
        7 => add_preset_twice(random, &mut task),
        8 => return too_many(random, task),
        9 => leave_out(random, &mut task),
        10 => change_effects(random, &mut task),
        11 => {
            let len = random.below(40);
            return random.bytes(len);
        }
        _ => return damage::damaged(random, &task.file()),
    }
    let file = task.file();
    if random.one_in(6) {
        return damage::damaged(random, &file);
    }
    file
}

fn break_bounds(random: &mut Random, task: &mut Task) {
    let bounds = &mut task.bounds;
    let (bound, most) = match random.below(5) {
        0 => (&mut bounds.facts, MOST.facts),
        1 => (&mut bounds.procedures, MOST.procedures),
        2 => (&mut bounds.last_line, MOST.last_line),
        3 => (&mut bounds.frames, MOST.frames),
        _ => {
            bounds.steps = random.pick(&[0, MOST.steps + 1, u16::MAX]);
            return;
        }
    };
    *bound = random.pick(&[0, most + 1, 255]);
}

/// Breaks a pair or a start of the task.
fn break_set(random: &mut Random, task: &mut Task) {
    let bounds = task.bounds;
    let case = random.below(task.cases.len());
    let mut start = task.cases[case].start;
    let mut pairs = task.pairs();
    let pair = random.below(pairs.len());
    break_sets(random, &bounds, &mut start, pairs[pair]);
    task.cases[case].start = start;
}

/// Puts facts at or above F into a set, or one fact into both sets of the pair.
pub fn break_sets(random: &mut Random, bounds: &Bounds, start: &mut u64, pair: &mut Pair) {
    let below = 1 << random.below(bounds.facts.into());
    // Fact F alone, or any from F on; none if F is 64.
    let beyond = !bounds.all_facts();
    let any = beyond & random.number();
    let above = random.pick(&[beyond & beyond.wrapping_neg(), any]);
    match random.below(4) {
        0 => pair.0 |= above,
        1 => pair.1 |= above,
        2 => *pair = Pair(pair.0 | below, pair.1 | below),
        _ => *start |= above,
    }
}

/// Adds a preset with a procedure, a line or an instruction that it may not have.
fn add_wrong_preset(random: &mut Random, task: &mut Task) {
    let bounds = &task.bounds;
    let (procedure, line) = random.line(bounds);
    let (procedure, line, instruction) = match random.below(5) {
        0 => (random.at_least(bounds.procedures), 1, END),
        1 => (procedure, random.at_least(bounds.last_line + 1), END),
        2 => (procedure, line, EMPTY),
        _ => (procedure, line, disallowed(random, task, line)),
    };
    let at = random.below(task.presets.len() + 1);
    task.presets
        .insert(at, Preset(procedure, line, instruction));
}

fn add_preset_twice(random: &mut Random, task: &mut Task) {
    let (procedure, line) = random.line(&task.bounds);
    for _ in 0..2 {
        let instruction = allowed(random, task, line);
        task.presets.push(Preset(procedure, line, instruction));
    }
}

/// The file with as many actions or cases as there may be, or with one more. The last one may be wrong in itself too.
fn too_many(random: &mut Random, mut task: Task) -> Vec<u8> {
    let more = random.below(2);
    let [wrong_pair, wrong_length] = [random.one_in(4), random.one_in(4)];
    let (last, pair) = if random.one_in(2) {
        let action = task.actions[0].clone();
        task.actions.resize(usize::from(ACTIONS) + more, action);
        let last = task.actions.len();
        (last, &mut task.actions[last - 1].precondition)
    } else {
        task.cases.resize(usize::from(CASES) + more, task.cases[0]);
        let last = task.cases.len();
        let before = task.actions.len() + task.presets.len();
        (before + last, &mut task.cases[last - 1].goal)
    };
    if wrong_pair {
        *pair = Pair(1, 1);
    }
    let mut records = records(&task.file());
    if wrong_length {
        change_length(random, &mut records[last]);
    }
    records.concat()
}

/// Leaves out all actions or all cases.
fn leave_out(random: &mut Random, task: &mut Task) {
    if random.one_in(2) {
        task.actions.clear();
    } else {
        task.cases.clear();
    }
}

/// Gives an action with effects as many as there may be, or one more.
fn change_effects(random: &mut Random, task: &mut Task) {
    let action = random.below(task.actions.len());
    let effects = &mut task.actions[action].effects;
    if let Some(&effect) = effects.first() {
        effects.resize(usize::from(EFFECTS) + random.below(2), effect);
    }
}
