//! Damage to a plan, mostly to one of its steps.

use super::damage::{self, records};
use super::instructions::{allowed, disallowed};
use super::random::Random;
use super::task::{record, step_body, Instruction, Task};

pub fn damaged(random: &mut Random, task: &Task, plan: &[u8]) -> Vec<u8> {
    let mut records = records(plan);
    let steps = records.len() - 1;
    match random.below(8) {
        0 | 1 => {
            // Often behind the finish.
            let at = random.below(steps + 1);
            let at = random.pick(&[at, steps]);
            records.insert(at, any_step(random, task));
        }
        2..=5 if steps > 0 => {
            let step = random.below(steps);
            change_step(random, task, &mut records[step]);
        }
        6 if random.one_in(4) => {
            let len = random.below(40);
            return random.bytes(len);
        }
        _ => return damage::damaged(random, plan),
    }
    let plan = records.concat();
    if random.one_in(6) {
        return damage::damaged(random, &plan);
    }
    plan
}

/// Changes the kind, the procedure, the line or the instruction.
fn change_step(random: &mut Random, task: &Task, step: &mut [u8]) {
    let bounds = &task.bounds;
    let line = step[5];
    match random.below(8) {
        0 | 1 => step[2] ^= 1,
        2 => step[4] = random.between(0, bounds.procedures - 1),
        3 => step[4] = random.at_least(bounds.procedures),
        4 => step[5] = random.between(0, bounds.last_line),
        5 => step[5] = random.at_least(bounds.last_line + 1),
        6 => step[6..].copy_from_slice(&any_instruction(random, task, line)),
        _ => step[6 + random.below(3)] = random.between(0, 5),
    }
}

/// A step for any line, now and then with a body that is too short.
fn any_step(random: &mut Random, task: &Task) -> Vec<u8> {
    let (procedure, line) = random.line(&task.bounds);
    let instruction = any_instruction(random, task, line);
    let mut body = step_body(procedure, line, instruction);
    body.truncate(random.pick(&[5, 5, 5, 5, 5, 4]));
    record(random.pick(&[16, 17]), &body)
}

fn any_instruction(random: &mut Random, task: &Task, line: u8) -> Instruction {
    if random.one_in(3) {
        disallowed(random, task, line)
    } else {
        allowed(random, task, line)
    }
}
