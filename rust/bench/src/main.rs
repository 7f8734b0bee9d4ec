//! The proved library beside the plain Rust one: instructions and time of a call of each entry.
//!
//! `bench` measures all. `bench count-all [FILTER]` counts instructions alone, in the rows whose `INPUT/ENTRY` contains the filter.
//! A row of `step` is the mean over the first 64 calls of a run, or all if there are fewer; one of `steps-40` is one call for forty steps; one
//! of `add_case` is one call that adds the task's last case to the task without it.

mod agree;
mod clock;
mod count;
mod entry;
mod growth;
mod inputs;
mod late_case;
mod numbers;
mod position;
mod report;
mod sides;
mod table;

use report::Measures;
use std::env;
use std::process::ExitCode;

fn main() -> ExitCode {
    let arguments: Vec<String> = env::args().skip(1).collect();
    let words: Vec<&str> = arguments.iter().map(String::as_str).collect();
    if run(&words).is_none() {
        eprintln!("usage: bench [count-all [FILTER] | count INPUT ENTRY SIDE]");
        return ExitCode::FAILURE;
    }
    ExitCode::SUCCESS
}

/// Gives nothing when the words are none of those in the usage.
fn run(words: &[&str]) -> Option<()> {
    match *words {
        [] => print("", true),
        ["count-all"] => print("", false),
        ["count-all", filter] => print(filter, false),
        ["count", input, entry, side] => count::count_here(input, entry, side)?,
        _ => return None,
    }
    Some(())
}

fn print(filter: &str, times: bool) {
    let measures = Measures {
        instructions: true,
        times,
    };
    report::print(filter, measures);
}
