//! Before anything is measured: both sides give the answers that the input was made for.

use crate::entry::{Entry, FORTY};
use crate::inputs::Input;
use crate::late_case::LateCase;
use crate::position;
use crate::sides::{Side, LIBRARY, REFERENCE, SIDES};
use planning_program::CASE_LEN;
use reference::{Answer, StepsAnswer};

/// Panics where a side answers otherwise.
pub fn check(name: &str, input: &Input) {
    for side in SIDES {
        check_side(name, input, side);
    }
    if input.entries.contains(&Entry::AddCase) {
        check_late_case(name, input);
    }
    check_run(name, input);
    check_run_by_forty(name, input);
}

fn check_side(name: &str, input: &Input, side: &Side) {
    let Input {
        task,
        program,
        plan,
        steps,
        ..
    } = input;
    let accepted = |value| Answer { number: 0, value };
    let about = format!("{name}, {}", side.name);
    assert_eq!((side.check_task)(task), accepted(0), "{about}");
    let mut read = vec![0xff; program.len()];
    let answer = (side.check_plan)(task, plan, &mut read);
    assert_eq!(answer, accepted(*steps), "{about}: checker");
    assert!(read == *program, "{about}: the checker's program");
    let mut written = vec![0xff; plan.len()];
    let answer = (side.write_plan)(task, program, &mut written);
    assert_eq!(answer, accepted(*steps), "{about}: writer");
    assert!(written == *plan, "{about}: the writer's plan");
}

/// Both sides make the task whole again.
fn check_late_case(name: &str, input: &Input) {
    for side in SIDES {
        let mut buffer = input.task.clone();
        let spare = buffer.len() - CASE_LEN;
        buffer[spare..].fill(0xff);
        let given = LateCase::of(input).add(side, &mut buffer, &position::start(input));
        let answer = Answer {
            number: 0,
            value: input.task.len() as u32,
        };
        assert_eq!(given, answer, "{name}, {}: late case", side.name);
        assert!(buffer == input.task, "{name}, {}: the task", side.name);
    }
}

/// Both sides' single steps make the whole run alike, and finish it.
fn check_run(name: &str, input: &Input) {
    let (mut one, mut other) = (position::start(input), position::start(input));
    for step in 0..=input.steps {
        let answer = Answer {
            number: 0,
            value: u32::from(step < input.steps),
        };
        for (side, run) in [(&LIBRARY, &mut one), (&REFERENCE, &mut other)] {
            let given = (side.step)(&input.task, &input.program, run);
            assert_eq!(given, answer, "{name}, {}: step {step}", side.name);
        }
        assert!(one == other, "{name}: the record after step {step}");
    }
}

/// So do their calls for forty steps.
fn check_run_by_forty(name: &str, input: &Input) {
    let (mut one, mut other) = (position::start(input), position::start(input));
    for done in (0..=input.steps).step_by(FORTY.into()) {
        let answer = StepsAnswer {
            number: 0,
            place: 0,
            made: (input.steps - done).min(FORTY.into()) as u16,
        };
        for (side, run) in [(&LIBRARY, &mut one), (&REFERENCE, &mut other)] {
            let given = (side.steps)(&input.task, &input.program, FORTY.into(), run);
            assert_eq!(given, answer, "{name}, {}: from step {done}", side.name);
        }
        assert!(one == other, "{name}: the record from step {done} on");
    }
    assert_eq!(one.depth, 0, "{name}: the finish");
}
