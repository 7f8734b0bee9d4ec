//! The two sides that are measured, behind the same functions.

mod library;
mod plain;

use reference::{Answer, Run, StepsAnswer};

pub struct Side {
    pub name: &'static str,
    pub check_task: fn(&[u8]) -> Answer,
    pub check_plan: fn(&[u8], &[u8], &mut [u8]) -> Answer,
    pub write_plan: fn(&[u8], &[u8], &mut [u8]) -> Answer,
    pub step: fn(&[u8], &[u8], &mut Run) -> Answer,
    pub steps: fn(&[u8], &[u8], u64, &mut Run) -> StepsAnswer,
    pub add_case: fn(&mut [u8], usize, [u64; 3], &Run) -> Answer,
}

/// The proved library.
pub static LIBRARY: Side = Side {
    name: "library",
    check_task: library::check_task,
    check_plan: library::check_plan,
    write_plan: library::write_plan,
    step: library::step,
    steps: library::steps,
    add_case: library::add_case,
};

/// The plain Rust implementation.
pub static REFERENCE: Side = Side {
    name: "reference",
    check_task: plain::check_task,
    check_plan: plain::check_plan,
    write_plan: plain::write_plan,
    step: plain::step,
    steps: plain::steps,
    add_case: plain::add_case,
};

pub static SIDES: [&Side; 2] = [&LIBRARY, &REFERENCE];
