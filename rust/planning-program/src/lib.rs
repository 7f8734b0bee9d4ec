//! Checks and writes plans of planning programs.
//!
//! A *task* names facts, actions and cases, each case with a start and a goal. A *program* is numbered lines that do an action, jump on a
//! fact, call a procedure or end it; a *plan* writes such a program line by line and runs it on every case. A [`Task`] says whether a plan
//! does so, and which program it wrote; it runs a program and writes its plan; and a [`Run`] runs a program by single steps, or by many in a
//! call, and lets a case be added to its task meanwhile. Each no is a [`Refusal`]: the number of the first question whose answer is no, and
//! its place. A no to many steps is a [`StepsRefusal`], which says how many were made before it.
//!
//! ```
//! use planning_program::{Progress, Refusal, Run, Task};
//!
//! fn main() -> Result<(), Refusal> {
//!     let task = Task::check(include_bytes!("../../../samples/double-click/task.bin"))?;
//!     let plan = include_bytes!("../../../samples/double-click/plan.bin");
//!
//!     let checked = task.check_plan(plan)?;
//!     assert_eq!(checked.steps, 5);
//!     assert_eq!(task.write_plan(&checked.program)?, plan);
//!
//!     let mut run = Run::start(&task);
//!     while run.step(&task, &checked.program)? == Progress::Stepped {}
//!     assert!(run.is_finished());
//!     Ok(())
//! }
//! ```
//!
//! The answers come from a library that is proved to equal its definition on every input; this crate adds the types around it, and trusts
//! nothing about the bytes. The files, the questions and the places are fixed in `docs/FORMATS.md`.

#![deny(unsafe_code)]
#![warn(missing_docs)]

mod late_case;
pub mod model;
#[allow(unsafe_code)]
pub mod raw;
mod records;
mod refusal;
mod run;
mod task;

pub use late_case::{Goal, CASE_LEN};
pub use refusal::{Refusal, StepsRefusal};
pub use run::{Progress, Run};
pub use task::{plan_len, CheckedPlan, Task, MAX_PLAN_LEN, MAX_PROGRAM_LEN};
