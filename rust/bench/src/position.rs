//! Positions from which steps are measured.

use crate::entry::Op;
use crate::inputs::Input;
use crate::sides::LIBRARY;
use planning_program::{raw, Task};
use reference::Run;

/// A fresh run: the first case's start and one frame.
pub fn start(input: &Input) -> Run {
    let task = Task::check(&input.task).expect("a task that passes");
    let raw::Run {
        facts,
        steps,
        case,
        depth,
        frames,
    } = *planning_program::Run::start(&task).record();
    Run {
        facts,
        steps,
        case,
        depth,
        frames,
    }
}

/// The first position of the run that has this op on its top line.
pub fn first_with(op: Op, input: &Input) -> Run {
    let mut run = start(input);
    while next_op(input, &run) != op as u8 {
        let answer = (LIBRARY.step)(&input.task, &input.program, &mut run);
        assert!(answer.value == 1, "the run has no such op");
    }
    run
}

fn next_op(input: &Input, run: &Run) -> u8 {
    let lines = usize::from(input.task[6]) + 1;
    let [procedure, line] = run.frames[usize::from(run.depth) - 1].map(usize::from);
    input.program[3 * (procedure * lines + line)]
}
