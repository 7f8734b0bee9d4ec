//! A program that mostly calls and ends. Procedures 0 to 6 call the next one, 3 and 6 of them twice; procedure 7 calls procedure 0 unless the
//! run is deep already. So the stack fills up to its bound of 16, and a case takes 167 steps.

use super::{numbers, Input, Lines};
use crate::entry::Entry;
use planning_program::model::{words::*, Bounds, TaskBuilder};

const CASES: u32 = 24;

const BOUNDS: Bounds = Bounds {
    last_line: 5,
    stack: 16,
    steps: 4096,
};

pub fn input() -> Input {
    Input::written(task(), program(), 167 * CASES, &Entry::EACH)
}

/// The fact `deep` is true while the run has more than eight frames.
fn task() -> TaskBuilder {
    let cases = numbers(CASES as usize).into_iter();
    TaskBuilder::new(BOUNDS)
        .facts(["deep"])
        .actions([
            action("go deep")
                .needs([not("deep")])
                .effects([always().raises(["deep"])]),
            action("come back")
                .needs([is("deep")])
                .effects([always().lowers(["deep"])]),
        ])
        .procedures(numbers(8))
        .cases(cases.map(|name| case(name).goal([not("deep")])))
}

fn program() -> Vec<Lines> {
    let next = |procedure: u8| call((procedure + 1).to_string());
    let once = |procedure| vec![next(procedure), end()];
    let twice = |procedure| vec![next(procedure), next(procedure), end()];
    let last = vec![
        goto_unless(2, "deep"),
        end(),
        act("go deep"),
        call("0"),
        act("come back"),
        end(),
    ];
    vec![
        once(0),
        once(1),
        once(2),
        twice(3),
        once(4),
        once(5),
        twice(6),
        last,
    ]
}
