//! What is measured: tasks with a program and its plan.

mod calls;
mod double_click;
mod growth;
mod large;

use crate::entry::Entry;
use crate::sides::LIBRARY;
use planning_program::model::{words::procedure, Instruction, Procedure, TaskBuilder};
use planning_program::plan_len;

pub struct Input {
    pub task: Vec<u8>,
    pub program: Vec<u8>,
    pub plan: Vec<u8>,
    /// The steps of the plan, as the input was made to have them.
    pub steps: u32,
    /// The entries that are measured on it.
    pub entries: Vec<Entry>,
}

/// The lines of one procedure.
type Lines = Vec<Instruction<String>>;

impl Input {
    /// The input of a task and a program, whose plan is what the proved writer gives.
    fn written(task: TaskBuilder, program: Vec<Lines>, steps: u32, entries: &[Entry]) -> Input {
        let model = task.build().expect("a task without a mistake");
        let program = model.program(procedures(program));
        let program = program.expect("a program without a mistake").bytes();
        let task = model.task_bytes().to_vec();
        let mut plan = vec![0; plan_len(steps as usize)];
        (LIBRARY.write_plan)(&task, &program, &mut plan);
        Input {
            task,
            program,
            plan,
            steps,
            entries: entries.to_vec(),
        }
    }
}

/// The procedures with these lines; their names are their numbers.
fn procedures(program: Vec<Lines>) -> impl Iterator<Item = Procedure> {
    let names = numbers(program.len()).into_iter();
    names
        .zip(program)
        .map(|(name, lines)| procedure(name, lines))
}

/// So many numbers from 0 on, as names.
fn numbers(count: usize) -> Vec<String> {
    (0..count).map(|number| number.to_string()).collect()
}

/// An input's name, and how it is made.
type Named = (&'static str, fn() -> Input);

pub const INPUTS: [Named; 8] = [
    ("double-click", double_click::input),
    ("large", large::input),
    ("largest-task", large::largest_task),
    ("calls", calls::input),
    ("growth-64", growth::shortest),
    ("growth-256", || growth::input(256)),
    ("growth-1024", || growth::input(1024)),
    ("growth-4096", || growth::input(4096)),
];
