//! Plans of planning programs, checked and written in plain Rust by the rules of docs/FORMATS.md.
//! Shares no code with the proved library, so that the two can be compared.

#![forbid(unsafe_code)]

mod action;
mod answer;
mod checker;
mod facts;
mod instruction;
mod late_case;
mod listing;
mod program;
mod records;
mod run;
mod single_step;
mod steps;
mod task;
mod writer;

pub use answer::{Answer, StepsAnswer};
pub use checker::check_plan;
pub use facts::pairs_before_fault;
pub use late_case::add_case;
pub use listing::print_check;
pub use run::Run;
pub use single_step::step;
pub use steps::steps;
pub use task::check_task;
pub use writer::write_plan;
