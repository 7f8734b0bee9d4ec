//! Tasks, programs and plans in names: from words to bytes, and back to a listing.
//!
//! A [`TaskBuilder`] takes facts, actions, procedures and cases by name and gives a [`Model`]: the task's bytes, and the names to write programs
//! and to read listings with. The words for it stand in [`words`].
//!
//! A runner clicks twice on a race's entry form. The first click finds it open and gives a bib number; the second must do nothing. One program
//! has to end both cases in the goal:
//!
//! ```
//! use planning_program::model::{words::*, Bounds, TaskBuilder};
//! use planning_program::Task;
//!
//! let goal = [is("bib"), not("open")];
//! let model = TaskBuilder::new(Bounds { last_line: 2, stack: 1, steps: 5 })
//!     .facts(["open", "bib"])
//!     .actions([action("enter")
//!         .needs([is("open")])
//!         .effects([always().raises(["bib"]).lowers(["open"])])])
//!     .procedures(["main"])
//!     .cases([
//!         case("first click").start(["open"]).goal(goal.clone()),
//!         case("second click").start(["bib"]).goal(goal),
//!     ])
//!     .build()?;
//! let program = model.program([procedure("main", [
//!     goto_unless(2, "open"),
//!     act("enter"),
//!     end(),
//! ])])?;
//!
//! let task = Task::check(model.task_bytes())?;
//! let plan = task.write_plan(&program.bytes())?;
//!
//! // The other way: the plan gives the program back, and the names make it readable.
//! let checked = task.check_plan(&plan)?;
//! let read_off = model.program_of(&checked.program).expect("the checker gives a program");
//! assert_eq!(model.listing(&read_off), "\
//! procedure 0 main
//! 0 goto 2 unless open
//! 1 act enter
//! 2 end
//! ");
//! # Ok::<(), Box<dyn std::error::Error>>(())
//! ```

mod action;
mod bounds;
mod builder;
mod case;
mod instruction;
mod listing;
mod mistake;
mod names;
mod plan;
mod program;
#[cfg(test)]
mod tests;

pub use action::{Action, Effect, Literal};
pub use bounds::Bounds;
pub use builder::TaskBuilder;
pub use case::Case;
pub use instruction::Instruction;
pub use mistake::Mistake;
pub use names::{NameKind, NameList, Names};
pub use plan::{plan_bytes, steps_of, Step, StepKind};
pub use program::{Procedure, Program};

use crate::late_case::Goal;

/// The words in which tasks and programs are described, to be imported together.
pub mod words {
    pub use super::action::{action, always, is, not, when};
    pub use super::case::case;
    pub use super::instruction::{act, call, empty, end, goto_unless};
    pub use super::program::procedure;
}

/// A task that was built from names: its bytes and its names.
#[derive(Clone, Debug, PartialEq, Eq)]
pub struct Model {
    names: Names,
    bounds: Bounds,
    presets: Program,
    task: Vec<u8>,
}

impl Model {
    /// The task file.
    pub fn task_bytes(&self) -> &[u8] {
        &self.task
    }

    /// The names, and with them the numbers.
    pub fn names(&self) -> &Names {
        &self.names
    }

    /// The bounds that the task was built with.
    pub fn bounds(&self) -> Bounds {
        self.bounds
    }

    /// The program with these procedures. Preset lines are in place already and are not given again; lines that nobody gives are empty.
    pub fn program(
        &self,
        procedures: impl IntoIterator<Item = Procedure>,
    ) -> Result<Program, Mistake> {
        let mut program = self.presets.clone();
        for procedure in procedures {
            program.fill(&procedure, &self.names)?;
        }
        Ok(program)
    }

    /// A case in sets of facts: those that are true at its start, and its goal, as [`Run::add_case`](crate::Run::add_case) takes them. Its
    /// name serves a mistake alone.
    ///
    /// ```
    /// use planning_program::model::{words::*, Bounds, TaskBuilder};
    /// use planning_program::{Run, Task, CASE_LEN};
    ///
    /// let model = TaskBuilder::new(Bounds { last_line: 2, stack: 1, steps: 10 })
    ///     .facts(["open", "bib"])
    ///     .actions([action("enter").effects([always().raises(["bib"])])])
    ///     .procedures(["main"])
    ///     .cases([case("first click").start(["open"]).goal([is("bib")])])
    ///     .build()?;
    /// let mut buffer = model.task_bytes().to_vec();
    /// let len = buffer.len();
    /// buffer.resize(len + CASE_LEN, 0);
    /// let run = Run::start(&Task::check(&buffer[..len])?);
    ///
    /// let (start, goal) = model.case_sets(&case("closed").goal([is("bib"), not("open")]))?;
    /// let len = run.add_case(&mut buffer, len, start, goal)?;
    /// assert_eq!(Task::check(&buffer[..len])?.cases(), 2);
    /// # Ok::<(), Box<dyn std::error::Error>>(())
    /// ```
    pub fn case_sets(&self, case: &Case) -> Result<(u64, Goal), Mistake> {
        self.names.case_sets(case)
    }

    /// The program in these bytes, if they have the length of one for this task and each line has an instruction.
    pub fn program_of(&self, bytes: &[u8]) -> Option<Program> {
        let program = Program::from_bytes(bytes, self.bounds.last_line);
        program.filter(|_| bytes.len() == self.presets.bytes().len())
    }

    /// The lines of a program with the names, every line of every procedure. An operand that has no name shows its number.
    pub fn listing(&self, program: &Program) -> String {
        listing::program_listing(&self.names, program)
    }

    /// The steps of a plan with the names, as `write main 0 goto 2 unless open`: what is done, procedure, line and instruction.
    pub fn plan_listing(&self, steps: &[Step]) -> String {
        listing::plan_listing(&self.names, steps)
    }
}
