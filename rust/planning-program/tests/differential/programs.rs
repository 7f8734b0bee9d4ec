//! Programs whose lines are all allowed.

use super::counting::{count, count_in_loop, count_in_recursion};
use super::instructions::allowed;
use super::random::Random;
use super::task::{Instruction, Task, EFFECTS, EMPTY, END};

/// A program for the task; in half of them a procedure counts, by an action that is put into the task.
pub fn program(random: &mut Random, task: &mut Task) -> Vec<u8> {
    let mut program = any_lines(random, task, 1);
    let action = random.below(task.actions.len());
    let procedure = random.between(0, task.bounds.procedures - 1);
    let procedure = random.pick(&[procedure, 0]);
    let lines = match random.below(4) {
        0 => {
            let bits = random.between(1, task.bounds.facts.min(EFFECTS));
            task.actions[action] = count(bits);
            count_in_loop(action as u8, bits - 1)
        }
        1 => {
            // From 0 the stack gets 2, 4, 8 or 16 frames.
            let bits = random.between(2, 5).min(task.bounds.facts);
            task.actions[action] = count(bits);
            count_in_recursion(action as u8, bits - 1, procedure)
        }
        _ => Vec::new(),
    };
    put_first(task, &mut program, procedure, &lines);
    program
}

/// A program of 4,096 steps for a task of full size, which gets the action that counts and the starts from which it does.
pub fn longest(random: &mut Random, task: &mut Task) -> Vec<u8> {
    task.actions[0] = count(EFFECTS);
    for (number, case) in task.cases.iter_mut().enumerate() {
        // From 64 or 65 to 128 in two steps each, and the end: 129 and 127 steps in turn.
        case.start = case.start & !255 | [64, 65][number % 2];
    }
    let mut program = any_lines(random, task, 0);
    let mut lines = count_in_loop(0, EFFECTS - 1);
    lines.push(END);
    put_first(task, &mut program, 0, &lines);
    program
}

/// Any allowed lines, so many of ten empty.
fn any_lines(random: &mut Random, task: &Task, empty: usize) -> Vec<u8> {
    let line = |(_, line)| {
        if random.below(10) < empty {
            EMPTY
        } else {
            allowed(random, task, line)
        }
    };
    task.bounds.lines().flat_map(line).collect()
}

/// Puts the lines at the start of a procedure that has room for them above its last line.
fn put_first(task: &Task, program: &mut [u8], procedure: u8, lines: &[Instruction]) {
    if lines.len() > task.bounds.last_line.into() {
        return;
    }
    for (line, &instruction) in lines.iter().enumerate() {
        task.bounds.put(program, procedure, line as u8, instruction);
    }
}
