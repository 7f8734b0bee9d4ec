//! Damage to a program: to its length, or to one line or two.

use super::instructions::{allowed, disallowed};
use super::random::Random;
use super::task::{Task, EMPTY};

pub fn damaged(random: &mut Random, task: &Task, program: &[u8]) -> Vec<u8> {
    let mut program = program.to_vec();
    match random.below(16) {
        0 => program.truncate(random.pick(&[0, program.len() - 3, program.len() - 1])),
        1 => {
            let more = random.pick(&[1, 3]);
            program.extend(random.bytes(more));
        }
        2 => program = random.bytes(program.len()),
        3 => {
            let at = random.below(program.len());
            program[at] = random.byte();
        }
        4 | 5 => {
            change_line(random, task, &mut program);
            change_line(random, task, &mut program);
        }
        _ => change_line(random, task, &mut program),
    }
    program
}

/// Empties a line, or puts there an instruction that is allowed or one that is not.
fn change_line(random: &mut Random, task: &Task, program: &mut [u8]) {
    let (procedure, line) = random.line(&task.bounds);
    // Procedure 0 is the one that surely runs.
    let procedure = random.pick(&[procedure, 0]);
    let instruction = match random.below(5) {
        0 => EMPTY,
        1 => disallowed(random, task, line),
        _ => allowed(random, task, line),
    };
    task.bounds.put(program, procedure, line, instruction);
}
