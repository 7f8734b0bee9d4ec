//! Instructions that are allowed on a line of a task's programs, and instructions that are not.

use super::random::Random;
use super::task::{Instruction, Task, END};

/// One that is allowed on this line, not empty.
pub fn allowed(random: &mut Random, task: &Task, line: u8) -> Instruction {
    let bounds = &task.bounds;
    if line == bounds.last_line {
        return END;
    }
    match random.below(10) {
        0..=3 => [1, random.index(task.actions.len() as u8), 0],
        4 | 5 => {
            // Mostly forward, so that many runs end.
            let first = if random.one_in(4) { 0 } else { line + 1 };
            let target = random.between(first, bounds.last_line);
            [2, target, random.index(bounds.facts)]
        }
        6 if line > 0 => END,
        _ => [3, random.index(bounds.procedures), 0],
    }
}

/// One that is allowed nowhere, or not on this line; as a program's line it is not empty either.
pub fn disallowed(random: &mut Random, task: &Task, line: u8) -> Instruction {
    let bounds = &task.bounds;
    let actions = task.actions.len() as u8;
    let any = random.between(1, 255);
    let operands = [
        [0, 0, any],
        [0, any, 0],
        [1, random.at_least(actions), 0],
        [1, 0, any],
        [2, random.at_least(bounds.last_line + 1), 0],
        [2, 0, random.at_least(bounds.facts)],
        [3, random.at_least(bounds.procedures), 0],
        [3, 0, any],
        [4, 0, any],
        [4, any, 0],
        [random.at_least(5), 0, 0],
    ];
    match random.below(4) {
        0 if line == 0 => END,
        0 if line == bounds.last_line => [random.between(1, 3), 0, 0],
        _ => random.pick(&operands),
    }
}
