//! Everyone in the queue at a race's entry desk moves up one place. Where one leaves the desk and another comes to it, one effect lowers
//! `at desk` and the other raises it: it stays true.

use super::Sample;
use planning_program::model::{words::*, Bounds, Case, Effect, Mistake, TaskBuilder};

/// The places in the order in which a runner passes them.
const PLACES: [&str; 3] = ["waiting", "at desk", "entered"];

pub fn sample() -> Result<Sample, Mistake> {
    let bounds = Bounds {
        last_line: 1,
        stack: 1,
        steps: 8,
    };
    let next = action("next").effects([moves("waiting", "at desk"), moves("at desk", "entered")]);
    let model = TaskBuilder::new(bounds)
        .facts(PLACES)
        .actions([next])
        .procedures(["main"])
        .cases([
            queue(
                "one at each",
                &["waiting", "at desk"],
                &["at desk", "entered"],
            ),
            queue("one waiting", &["waiting"], &["at desk"]),
            queue("one at desk", &["at desk"], &["entered"]),
            queue("nobody", &[], &[]),
        ])
        .build()?;
    let program = model.program([procedure("main", [act("next"), end()])])?;
    Ok(Sample {
        name: "moving-up",
        model,
        program,
    })
}

/// The effect that moves whoever is at a place on to the next one.
fn moves(from: &str, to: &str) -> Effect {
    when([is(from)]).raises([to]).lowers([from])
}

/// A queue with these places taken at the start, and those at the end.
fn queue(name: &str, start: &[&str], end: &[&str]) -> Case {
    let goal = PLACES.map(|place| {
        if end.contains(&place) {
            is(place)
        } else {
            not(place)
        }
    });
    case(name).start(start.iter().copied()).goal(goal)
}
