//! Tasks with a program that ends their cases in their goals, made from the program's run: preconditions and goals are met in it, and the
//! bounds of stack and steps just suffice or are wider.

use planning_program::raw::Run;

use super::instructions::allowed;
use super::positions::{run, top};
use super::programs;
use super::random::Random;
use super::task::{Instruction, Pair, Preset, Task, EMPTY, END, MOST};
use super::tasks;

pub struct Sample {
    pub task: Task,
    /// The task as a file.
    pub file: Vec<u8>,
    pub program: Vec<u8>,
    /// The positions of the program's run.
    pub run: Vec<Run>,
    /// The task's file and the program as they were before the changes that make the cases end.
    pub draft: (Vec<u8>, Vec<u8>),
}

impl Sample {
    /// The positions of the run from which a step raises a fact by one effect and lowers it by another, each with these facts.
    pub fn meetings(&self) -> Vec<(Run, u64)> {
        let meets = |position: &Run| {
            let action = next_action(&self.task, &self.program, position)?;
            let both = self.task.actions[action].raised_and_lowered(position.facts);
            (both != 0).then_some((*position, both))
        };
        let (_, before_the_last) = self.run.split_last().expect("the start");
        before_the_last.iter().filter_map(meets).collect()
    }
}

pub fn sample(random: &mut Random) -> Sample {
    let mut task = tasks::task(random);
    let program = programs::program(random, &mut task);
    fitted(random, task, program)
}

pub fn full_size(random: &mut Random) -> Sample {
    let mut task = tasks::full_size(random);
    let program = programs::longest(random, &mut task);
    fitted(random, task, program)
}

fn fitted(random: &mut Random, mut task: Task, mut program: Vec<u8>) -> Sample {
    let draft = (task.file(), program.clone());
    let run = end_cases(random, &task, &mut program);
    set_goals(random, &mut task, &run);
    set_preconditions(random, &mut task, &program, &run);
    set_bounds(random, &mut task, &run);
    set_presets(random, &mut task, &program);
    Sample {
        file: task.file(),
        task,
        program,
        run,
        draft,
    }
}

/// Repairs the program until it ends its cases; gives up after many repairs.
fn end_cases(random: &mut Random, task: &Task, program: &mut [u8]) -> Vec<Run> {
    let mut repairs = 0;
    loop {
        let (positions, number) = run(task, program);
        let last = positions[positions.len() - 1];
        if last.depth == 0 || repairs == 200 {
            return positions;
        }
        repair(random, task, program, number, &last);
        repairs += 1;
    }
}

/// Takes away what stopped the run at this position, by another instruction.
fn repair(random: &mut Random, task: &Task, program: &mut [u8], number: u32, stuck: &Run) {
    const TO_LINE_1: Instruction = [2, 1, 0];
    let [procedure, line] = top(stuck);
    let first = task.bounds.instruction(program, procedure, 0);
    let (line, instruction) = match number {
        28 => (line, allowed(random, task, line)),
        _ if line > 0 => (line, END),
        _ if first == TO_LINE_1 => (1, END),
        _ => (0, TO_LINE_1),
    };
    task.bounds.put(program, procedure, line, instruction);
}

/// Goals of literals that hold where the cases end.
fn set_goals(random: &mut Random, task: &mut Task, run: &[Run]) {
    let facts = task.bounds.all_facts();
    for (number, case) in task.cases.iter_mut().enumerate() {
        let in_case = |position: &&Run| usize::from(position.case) == number;
        case.goal = match run.iter().rfind(in_case) {
            Some(end) => random.pair(end.facts, facts & !end.facts),
            None => random.any_pair(facts),
        };
    }
}

/// Preconditions of literals that hold wherever the run has the action.
fn set_preconditions(random: &mut Random, task: &mut Task, program: &[u8], run: &[Run]) {
    let facts = task.bounds.all_facts();
    let mut held = vec![None; task.actions.len()];
    for position in run {
        if let Some(action) = next_action(task, program, position) {
            let held = &mut held[action];
            let Pair(yes, no) = held.unwrap_or(Pair(facts, facts));
            *held = Some(Pair(yes & position.facts, no & !position.facts));
        }
    }
    for (action, held) in task.actions.iter_mut().zip(held) {
        action.precondition = match held {
            Some(Pair(yes, no)) => random.pair(yes, no),
            None => random.any_pair(facts),
        };
    }
}

/// The action that the next step does, if it does one.
fn next_action(task: &Task, program: &[u8], position: &Run) -> Option<usize> {
    if position.depth == 0 {
        return None;
    }
    let [procedure, line] = top(position);
    match task.bounds.instruction(program, procedure, line) {
        [1, action, _] => Some(action.into()),
        _ => None,
    }
}

fn set_bounds(random: &mut Random, task: &mut Task, run: &[Run]) {
    let frames = run.iter().map(|position| position.depth).fold(1, u8::max);
    let steps = run[run.len() - 1].steps.max(1);
    task.bounds.frames = random
        .pick(&[frames, frames, frames + 1, u8::MAX])
        .min(MOST.frames);
    task.bounds.steps = random
        .pick(&[steps, steps, steps + 1, u16::MAX])
        .min(MOST.steps);
}

/// Presets of all lines that are not empty, of some or of none, in any order.
fn set_presets(random: &mut Random, task: &mut Task, program: &[u8]) {
    let of_ten = random.pick(&[0, 0, 0, 2, 5, 10]);
    for (procedure, line) in task.bounds.lines() {
        let instruction = task.bounds.instruction(program, procedure, line);
        if instruction != EMPTY && random.below(10) < of_ten {
            task.presets.push(Preset(procedure, line, instruction));
        }
    }
    random.shuffle(&mut task.presets);
}
