//! A task that passed its questions, and what is asked of it: is this plan one, and what is the plan of this program.

use crate::raw;
use crate::records::{kind, records};
use crate::refusal::{value, Refusal};

/// The most bytes that the program of any task has: 8 procedures of 32 lines.
pub const MAX_PROGRAM_LEN: usize = 768;

/// The most bytes that a plan written for any task has: 4,096 steps.
pub const MAX_PLAN_LEN: usize = plan_len(4096);

/// The bytes of a plan with so many steps.
///
/// ```
/// assert_eq!(planning_program::plan_len(5), 49);
/// ```
pub const fn plan_len(steps: usize) -> usize {
    9 * steps + 4
}

/// A task that passed questions 1 to 9. It borrows the bytes of the task file.
///
/// ```
/// use planning_program::{Refusal, Task};
///
/// let bytes = include_bytes!("../../../samples/double-click/task.bin");
/// let task = Task::check(bytes)?;
/// assert_eq!((task.facts(), task.procedures(), task.last_line()), (2, 1, 2));
/// assert_eq!((task.stack_bound(), task.step_bound()), (1, 5));
/// assert_eq!(task.cases(), 2);
///
/// // The file without its last byte: the closing record, at 118, is cut off.
/// let cut = Task::check(&bytes[..121]);
/// assert_eq!(cut, Err(Refusal { question: 1, place: 118 }));
/// # Ok::<(), Refusal>(())
/// ```
#[derive(Clone, Copy, Debug, PartialEq, Eq)]
pub struct Task<'a> {
    bytes: &'a [u8],
}

/// A plan that was accepted.
#[derive(Clone, Debug, PartialEq, Eq)]
pub struct CheckedPlan {
    /// The steps of the plan.
    pub steps: usize,
    /// The program that it wrote: three bytes for each line, procedure by procedure.
    pub program: Vec<u8>,
}

impl<'a> Task<'a> {
    /// The task in these bytes, if it passes.
    pub fn check(bytes: &'a [u8]) -> Result<Task<'a>, Refusal> {
        value(raw::check_task(bytes)).map(|_| Task { bytes })
    }

    /// Checks a plan, and gives the program that it wrote. Questions 11 to 24.
    ///
    /// ```
    /// use planning_program::{Refusal, Task};
    ///
    /// let task = Task::check(include_bytes!("../../../samples/double-click/task.bin"))?;
    /// let plan = include_bytes!("../../../samples/double-click/plan.bin");
    /// let checked = task.check_plan(plan)?;
    /// assert_eq!(checked.steps, 5);
    /// // goto 2 if fact 0 is false; act 0; end
    /// assert_eq!(checked.program, [2, 2, 0, 1, 0, 0, 4, 0, 0]);
    ///
    /// // The fourth step writes its line again.
    /// let mut wrong = plan.to_vec();
    /// wrong[29] = 16;
    /// assert_eq!(task.check_plan(&wrong), Err(Refusal { question: 18, place: 27 }));
    /// # Ok::<(), Refusal>(())
    /// ```
    pub fn check_plan(&self, plan: &[u8]) -> Result<CheckedPlan, Refusal> {
        let mut program = vec![0; self.program_len()];
        let steps = self.check_plan_into(plan, &mut program)?;
        Ok(CheckedPlan { steps, program })
    }

    /// Checks a plan, puts its program into the first [`program_len`](Task::program_len) bytes of `program` and gives the number of steps.
    /// Nothing is allocated. A refusal leaves `program` as it was. Questions 10 to 24.
    ///
    /// ```
    /// use planning_program::{Refusal, Task, MAX_PROGRAM_LEN};
    ///
    /// let task = Task::check(include_bytes!("../../../samples/double-click/task.bin"))?;
    /// let plan = include_bytes!("../../../samples/double-click/plan.bin");
    /// let mut buffer = [0; MAX_PROGRAM_LEN];
    /// assert_eq!(task.check_plan_into(plan, &mut buffer), Ok(5));
    /// assert_eq!(buffer[..task.program_len()], [2, 2, 0, 1, 0, 0, 4, 0, 0]);
    /// assert_eq!(task.check_plan_into(plan, &mut buffer[..8]), Err(Refusal { question: 10, place: 0 }));
    /// # Ok::<(), Refusal>(())
    /// ```
    pub fn check_plan_into(&self, plan: &[u8], program: &mut [u8]) -> Result<usize, Refusal> {
        value(raw::check_plan(self.bytes, plan, program)).map(|steps| steps as usize)
    }

    /// Runs a program on every case and gives its plan. Questions 25 to 27, then 14, 28 and 19 to 22 before each step.
    ///
    /// ```
    /// use planning_program::{Refusal, Task};
    ///
    /// let task = Task::check(include_bytes!("../../../samples/double-click/task.bin"))?;
    /// let plan = task.write_plan(&[2, 2, 0, 1, 0, 0, 4, 0, 0])?;
    /// assert_eq!(plan, include_bytes!("../../../samples/double-click/plan.bin"));
    ///
    /// // With line 1 empty, the run is stuck there after one step.
    /// let stuck = task.write_plan(&[2, 2, 0, 0, 0, 0, 4, 0, 0]);
    /// assert_eq!(stuck, Err(Refusal { question: 28, place: 1 }));
    /// # Ok::<(), Refusal>(())
    /// ```
    pub fn write_plan(&self, program: &[u8]) -> Result<Vec<u8>, Refusal> {
        let mut plan = vec![0; plan_len(self.step_bound().into())];
        let steps = self.write_plan_into(program, &mut plan)?;
        plan.truncate(plan_len(steps));
        Ok(plan)
    }

    /// Runs a program on every case, puts its plan into the first [`plan_len`]`(k)` bytes of `plan` and gives the number of steps k. Nothing is
    /// allocated. A refusal leaves `plan` as it was. Questions as for [`write_plan`](Task::write_plan), and 29 when `plan` is too short; one of
    /// [`MAX_PLAN_LEN`] bytes never is.
    ///
    /// ```
    /// use planning_program::{plan_len, Refusal, Task};
    ///
    /// let task = Task::check(include_bytes!("../../../samples/double-click/task.bin"))?;
    /// let program = [2, 2, 0, 1, 0, 0, 4, 0, 0];
    /// let mut buffer = [0; 64];
    /// let steps = task.write_plan_into(&program, &mut buffer)?;
    /// assert_eq!(buffer[..plan_len(steps)], *include_bytes!("../../../samples/double-click/plan.bin"));
    ///
    /// let short = task.write_plan_into(&program, &mut buffer[..48]);
    /// assert_eq!(short, Err(Refusal { question: 29, place: 49 }));
    /// # Ok::<(), Refusal>(())
    /// ```
    pub fn write_plan_into(&self, program: &[u8], plan: &mut [u8]) -> Result<usize, Refusal> {
        value(raw::write_plan(self.bytes, program, plan)).map(|steps| steps as usize)
    }

    /// The bytes of the task file.
    pub fn bytes(&self) -> &'a [u8] {
        self.bytes
    }

    /// F: the facts are those below this number.
    pub fn facts(&self) -> u8 {
        self.bytes[4]
    }

    /// b: the procedures are those below this number.
    pub fn procedures(&self) -> u8 {
        self.bytes[5]
    }

    /// n: the last line of each procedure.
    pub fn last_line(&self) -> u8 {
        self.bytes[6]
    }

    /// m: the most frames that the call stack may have.
    pub fn stack_bound(&self) -> u8 {
        self.bytes[7]
    }

    /// S: the most steps that a run may make.
    pub fn step_bound(&self) -> u16 {
        u16::from_le_bytes([self.bytes[8], self.bytes[9]])
    }

    /// The number of cases.
    pub fn cases(&self) -> u8 {
        self.starts().count() as u8
    }

    /// The bytes of a program for this task: three for each line of each procedure.
    pub fn program_len(&self) -> usize {
        3 * usize::from(self.procedures()) * (usize::from(self.last_line()) + 1)
    }

    /// The facts that are true at the start of each case.
    pub(crate) fn starts(&self) -> impl Iterator<Item = u64> + 'a {
        records(self.bytes)
            .filter(|&(kind, _)| kind == kind::CASE)
            .map(|(_, body)| u64::from_le_bytes(*body.first_chunk().expect("a case has 24 bytes")))
    }
}

#[cfg(test)]
mod tests {
    use super::Task;
    use crate::run::Run;

    /// F 5, b 3, n 7, m 4, S 300; an action, a preset line and three cases, which start from facts 22, 1 and 0.
    fn task() -> Vec<u8> {
        let case = |start: u8| [&[24, 0, 4, 0, start][..], &[0; 23]].concat();
        [
            &[6, 0, 1, 0, 5, 3, 7, 4, 44, 1][..],
            &[16, 0, 2, 0],
            &[0; 16],
            &[5, 0, 3, 0, 2, 7, 4, 0, 0],
            &[case(22), case(1), case(0)].concat(),
            &[0, 0, 5, 0],
        ]
        .concat()
    }

    #[test]
    fn bounds_and_cases() {
        let bytes = task();
        let task = Task::check(&bytes).expect("a task that passes");
        assert_eq!((task.facts(), task.procedures()), (5, 3));
        assert_eq!((task.last_line(), task.stack_bound()), (7, 4));
        assert_eq!((task.step_bound(), task.cases()), (300, 3));
        assert_eq!(task.program_len(), 72);
        assert_eq!(task.bytes(), bytes);
    }

    #[test]
    fn a_fresh_run() {
        let bytes = task();
        let run = Run::start(&Task::check(&bytes).expect("a task that passes"));
        assert_eq!((run.facts(), run.case(), run.steps_made()), (22, 0, 0));
        assert_eq!(run.frames(), [[0, 0]]);
        assert_eq!(run.record().frames, [[0, 0]; 16]);
        assert!(!run.is_finished());
    }
}
