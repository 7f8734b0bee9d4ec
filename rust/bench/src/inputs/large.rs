//! 64 actions of 8 effects and 32 cases. Every case takes 128 steps, of which 117 or 118 act.

use super::{numbers, procedures, Input, Lines};
use crate::entry::{Entry, Op};
use planning_program::model::{words::*, Action, Bounds, Case, Effect, Literal, TaskBuilder};

const BOUNDS: Bounds = Bounds {
    last_line: 31,
    stack: 2,
    steps: 4096,
};

// Facts, actions and procedures are named by their numbers. The facts are in eight groups of eight. Actions change the first six of a group
// alone; three of the others are used.
const BRANCH: &str = "6";
const READY: &str = "7";
const FAULT: &str = "14";

pub fn input() -> Input {
    let mut entries = Entry::EACH.to_vec();
    entries.extend([Op::Act, Op::Goto, Op::Call, Op::End].map(Entry::OneStep));
    Input::written(task(), program(), 4096, &entries)
}

/// The longest task that passes: the same with each of the 256 lines preset.
pub fn largest_task() -> Input {
    let mut program = program();
    // These are never called; an end may not stand on their line 0.
    program.extend([vec![act("0")], vec![act("0")]]);
    for lines in &mut program {
        lines.resize(usize::from(BOUNDS.last_line) + 1, end());
    }
    let task = task().presets(procedures(program));
    Input::written(task, Vec::new(), 4096, &Entry::EACH)
}

fn task() -> TaskBuilder {
    TaskBuilder::new(BOUNDS)
        .facts(numbers(64))
        .actions((0..64).map(acting_on_all_groups))
        .procedures(numbers(8))
        .cases((0..32).map(mixed_start))
}

/// Precondition of every action, and goal of every case.
fn ready() -> [Literal; 2] {
    [is(READY), not(FAULT)]
}

fn acting_on_all_groups(number: u32) -> Action {
    action(number.to_string())
        .needs(ready())
        .effects((0..8).map(|group| effect(number, group)))
}

/// Changes two facts of one group, which no other effect of the action changes, if a fact of the next group has the value asked for.
fn effect(action: u32, group: u32) -> Effect {
    let tested = fact((group + 1) % 8, (action + group) % 6);
    let asked = if (action + group).is_multiple_of(2) {
        is(tested)
    } else {
        not(tested)
    };
    when([asked])
        .raises([fact(group, action % 6)])
        .lowers([fact(group, (action + 1 + group % 5) % 6)])
}

fn fact(group: u32, place: u32) -> String {
    (8 * group + place).to_string()
}

/// A case in which any of the facts that actions change may be true.
fn mixed_start(number: u64) -> Case {
    let mixed = number.wrapping_mul(0x9e37_79b9_7f4a_7c15);
    let changing = (0..64).filter(|fact| fact % 8 < 6);
    let branch = (number % 2 == 1).then_some(BRANCH);
    case(number.to_string())
        .start([READY])
        .start(branch)
        .start(
            changing
                .filter(|fact| mixed >> fact & 1 == 1)
                .map(|fact| fact.to_string()),
        )
        .goal(ready())
}

/// Procedure 0 calls the others, which take all 64 actions. Its two ways to line 4 have the same number of steps.
fn program() -> Vec<Lines> {
    let first = vec![
        goto_unless(3, BRANCH),
        call("1"),
        goto_unless(4, FAULT),
        call("2"),
        call("3"),
        call("4"),
        call("5"),
        end(),
    ];
    vec![
        first,
        acting(0, 30),
        acting(0, 31),
        acting(31, 31),
        acting(62, 31),
        acting(29, 25),
    ]
}

/// A procedure that acts `count` times, from a given action on, and ends.
fn acting(from: u32, count: u32) -> Lines {
    let acts = (from..from + count).map(|action| act((action % 64).to_string()));
    acts.chain([end()]).collect()
}
