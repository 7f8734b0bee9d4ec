//! Tasks of small and of extreme sizes that pass, as yet without preconditions, goals and presets.

use super::random::Random;
use super::task::{Action, Bounds, Case, Effect, Pair, Task, ACTIONS, CASES, EFFECTS, MOST};

pub fn task(random: &mut Random) -> Task {
    let cases = random.size(3, CASES);
    let bounds = Bounds {
        facts: random.size(6, MOST.facts),
        procedures: random.size(4, MOST.procedures),
        last_line: random.size(9, MOST.last_line),
        frames: MOST.frames,
        // Mostly short runs.
        steps: MOST
            .steps
            .min(u16::from(cases) * random.pick(&[30, 30, 100, 2000])),
    };
    let actions = random.size(4, ACTIONS);
    filled(random, bounds, actions, cases, |random| {
        random.size(4, EFFECTS + 1) - 1
    })
}

/// A task with the most of everything.
pub fn full_size(random: &mut Random) -> Task {
    filled(random, MOST, ACTIONS, CASES, |_| EFFECTS)
}

fn filled(
    random: &mut Random,
    bounds: Bounds,
    actions: u8,
    cases: u8,
    effects: fn(&mut Random) -> u8,
) -> Task {
    let facts = bounds.all_facts();
    let action = |_| {
        let effects = effects(random);
        action(random, facts, effects)
    };
    let actions = (0..actions).map(action).collect();
    let case = |_| Case {
        start: random.some_of(facts),
        goal: Pair::default(),
    };
    Task {
        bounds,
        actions,
        presets: Vec::new(),
        cases: (0..cases).map(case).collect(),
    }
}

/// An action with so many effects, of which any may raise what another lowers.
fn action(random: &mut Random, facts: u64, effects: u8) -> Action {
    let effect = |_| Effect {
        condition: random.any_pair(facts),
        change: random.any_pair(facts),
    };
    Action {
        precondition: Pair::default(),
        effects: (0..effects).map(effect).collect(),
    }
}
