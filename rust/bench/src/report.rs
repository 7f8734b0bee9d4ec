//! Measures the rows and prints them, a table for each measure.

use crate::entry::Entry;
use crate::inputs::{Input, INPUTS};
use crate::numbers::{fraction, time, whole};
use crate::sides::SIDES;
use crate::table::Table;
use crate::{agree, clock, count, growth};

/// What is measured.
#[derive(Clone, Copy)]
pub struct Measures {
    pub instructions: bool,
    pub times: bool,
}

/// An entry on an input, and what was measured: of a call, the library's and the reference's.
pub struct Row {
    pub input: &'static str,
    pub entry: Entry,
    task_len: usize,
    plan_len: usize,
    pub steps: u32,
    pub instructions: Option<[f64; 2]>,
    nanoseconds: Option<[f64; 2]>,
}

/// Prints the rows whose `INPUT/ENTRY` contains the filter.
pub fn print(filter: &str, mut measures: Measures) {
    if measures.instructions && !count::is_possible() {
        println!("No instructions are counted: valgrind cannot be run.\n");
        measures.instructions = false;
    }
    let rows = measure_all(filter, measures);
    inputs(&rows).print("Inputs");
    both_sides(&rows, |row| row.instructions, whole).print("Instructions of a call");
    both_sides(&rows, |row| row.nanoseconds, time).print("Time of a call");
    growth::table(&rows).print("Growth of the instructions");
}

fn measure_all(filter: &str, measures: Measures) -> Vec<Row> {
    let mut rows = Vec::new();
    for (name, make) in INPUTS {
        let input = make();
        let mut entries = input.entries.clone();
        entries.retain(|entry| format!("{name}/{}", entry.name()).contains(filter));
        if !entries.is_empty() {
            agree::check(name, &input);
        }
        for entry in entries {
            rows.push(measure(name, entry, &input, measures));
        }
    }
    rows
}

fn measure(name: &'static str, entry: Entry, input: &Input, measures: Measures) -> Row {
    let per_call = |sum: f64| sum / f64::from(entry.calls(input));
    let instructions = || SIDES.map(|side| count::instructions(name, entry, side) as f64);
    let nanoseconds = || clock::nanoseconds(entry, input);
    Row {
        input: name,
        entry,
        task_len: input.task.len(),
        plan_len: input.plan.len(),
        steps: input.steps,
        instructions: measures.instructions.then(|| instructions().map(per_call)),
        nanoseconds: measures.times.then(|| nanoseconds().map(per_call)),
    }
}

/// The sizes of each input that was measured.
fn inputs(rows: &[Row]) -> Table {
    let mut table = Table::new(1, &["input", "task bytes", "plan bytes", "steps"]);
    for of_one_input in rows.chunk_by(|row, next| row.input == next.input) {
        let row = &of_one_input[0];
        table.row(vec![
            row.input.to_string(),
            whole(row.task_len as f64),
            whole(row.plan_len as f64),
            whole(f64::from(row.steps)),
        ]);
    }
    table
}

/// One measure of every row that has it: the library's, the reference's and their ratio.
fn both_sides(
    rows: &[Row],
    measure: fn(&Row) -> Option<[f64; 2]>,
    shown: fn(f64) -> String,
) -> Table {
    let mut table = Table::new(2, &["input", "entry", "library", "reference", "ratio"]);
    for row in rows {
        let Some([library, reference]) = measure(row) else {
            continue;
        };
        table.row(vec![
            row.input.to_string(),
            row.entry.name().to_string(),
            shown(library),
            shown(reference),
            fraction(library / reference),
        ]);
    }
    table
}
