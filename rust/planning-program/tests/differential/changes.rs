//! Changes of a task that leave it one that passes.

use super::instructions::allowed;
use super::random::Random;
use super::task::{Effect, Pair, Preset, Task, CASES, EFFECTS, EMPTY, MOST};

/// The task with one change, or with two.
pub fn changed(random: &mut Random, task: &Task, program: &[u8]) -> Task {
    let mut task = task.clone();
    change(random, &mut task, program);
    if random.one_in(3) {
        change(random, &mut task, program);
    }
    task
}

fn change(random: &mut Random, task: &mut Task, program: &[u8]) {
    let facts = task.bounds.facts;
    let action = random.below(task.actions.len());
    let case = random.below(task.cases.len());
    match random.below(8) {
        0 => task.bounds.steps = other_bound(random, task.bounds.steps, MOST.steps),
        1 => {
            let frames = other_bound(random, task.bounds.frames.into(), MOST.frames.into());
            task.bounds.frames = frames as u8;
        }
        2 => change_presets(random, task, program),
        3 => change_cases(random, task),
        4 => raise_and_lower(random, task),
        5 => change_pair(random, facts, &mut task.cases[case].goal),
        6 => change_pair(random, facts, &mut task.actions[action].precondition),
        _ => {
            let mut pairs = task.pairs();
            let pair = random.below(pairs.len());
            change_pair(random, facts, pairs[pair]);
        }
    }
}

/// Mostly one less, but never 0.
fn other_bound(random: &mut Random, bound: u16, most: u16) -> u16 {
    if random.one_in(4) {
        1 + random.below(most.into()) as u16
    } else {
        (bound - 1).max(1)
    }
}

/// Takes a preset away, or adds one of the instruction that the program has on the line or of another.
fn change_presets(random: &mut Random, task: &mut Task, program: &[u8]) {
    if random.one_in(4) && !task.presets.is_empty() {
        let preset = random.below(task.presets.len());
        task.presets.remove(preset);
        return;
    }
    let (procedure, line) = random.line(&task.bounds);
    let mut instruction = task.bounds.instruction(program, procedure, line);
    if instruction == EMPTY || random.one_in(2) {
        instruction = allowed(random, task, line);
    }
    task.presets
        .retain(|&Preset(j, i, _)| (j, i) != (procedure, line));
    task.presets.push(Preset(procedure, line, instruction));
}

/// Changes a start, swaps two cases, drops one, or adds one a second time.
fn change_cases(random: &mut Random, task: &mut Task) {
    let count = task.cases.len();
    let (one, other) = (random.below(count), random.below(count));
    match random.below(4) {
        0 => task.cases[one].start ^= random.some_of(task.bounds.all_facts()),
        1 if count > 1 => {
            task.cases.remove(one);
        }
        2 if count < CASES.into() => task.cases.insert(other, task.cases[one]),
        _ => task.cases.swap(one, other),
    }
}

/// Gives an action two effects of which one raises a fact and the other lowers it; mostly both fire.
fn raise_and_lower(random: &mut Random, task: &mut Task) {
    let facts = task.bounds.all_facts();
    let fact = 1 << random.below(task.bounds.facts.into());
    let action = random.below(task.actions.len());
    let effects = &mut task.actions[action].effects;
    effects.truncate(usize::from(EFFECTS) - 2);
    for change in [Pair(fact, 0), Pair(0, fact)] {
        let condition = if random.one_in(4) {
            random.any_pair(facts)
        } else {
            Pair::default()
        };
        effects.push(Effect { condition, change });
    }
    random.shuffle(effects);
}

/// Puts a fact on one side of the pair or on the other, or takes it away.
fn change_pair(random: &mut Random, facts: u8, pair: &mut Pair) {
    let fact = 1 << random.below(facts.into());
    let (yes, no) = (pair.0 & !fact, pair.1 & !fact);
    *pair = random.pick(&[Pair(yes | fact, no), Pair(yes, no | fact), Pair(yes, no)]);
}
