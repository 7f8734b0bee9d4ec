//! A run of a program, by single steps or by many in a call, in a record that the caller keeps.

use crate::raw;
use crate::refusal::{made, value, Refusal, StepsRefusal};
use crate::task::Task;

/// Where a run is: the case, the facts that are true, the call stack and the steps made.
///
/// ```
/// use planning_program::{Progress, Refusal, Run, Task};
///
/// let task = Task::check(include_bytes!("../../../samples/double-click/task.bin"))?;
/// let program = [2, 2, 0, 1, 0, 0, 4, 0, 0];
/// let mut run = Run::start(&task);
/// while run.step(&task, &program)? == Progress::Stepped {
///     println!("case {}, facts {:b}, frames {:?}", run.case(), run.facts(), run.frames());
/// }
/// assert!(run.is_finished());
/// assert_eq!((run.case(), run.steps_made()), (2, 5));
/// # Ok::<(), Refusal>(())
/// ```
///
/// Between two steps the record can be stored, and taken up again:
///
/// ```
/// use planning_program::{raw, Progress, Refusal, Run, Task};
///
/// let task = Task::check(include_bytes!("../../../samples/double-click/task.bin"))?;
/// let stored: raw::Run = *Run::start(&task).record();
/// let mut run = Run::from(stored);
/// assert_eq!(run.step(&task, &[2, 2, 0, 1, 0, 0, 4, 0, 0]), Ok(Progress::Stepped));
/// assert_eq!(run.frames(), [[0, 1]]);
/// # Ok::<(), Refusal>(())
/// ```
#[derive(Clone, Copy, Debug, PartialEq, Eq)]
pub struct Run {
    record: raw::Run,
}

/// What a single step did.
#[derive(Clone, Copy, Debug, PartialEq, Eq)]
pub enum Progress {
    /// One instruction was run.
    Stepped,
    /// Nothing: the run was finished already.
    Finished,
}

impl Run {
    /// A fresh run, at the start of the task's first case.
    pub fn start(task: &Task) -> Run {
        Run::from(raw::Run {
            facts: task.starts().next().expect("a task has a case"),
            steps: 0,
            case: 0,
            depth: 1,
            frames: [[0; 2]; 16],
        })
    }

    /// Runs one instruction of the program. A refusal leaves the run as it was: questions 25 to 27 about the program, 31 about the record, and
    /// 14, 28 and 19 to 22 about the step. Each call reads the whole task and program anew.
    pub fn step(&mut self, task: &Task, program: &[u8]) -> Result<Progress, Refusal> {
        let made = value(raw::step(task.bytes(), program, &mut self.record))?;
        Ok(if made == 0 {
            Progress::Finished
        } else {
            Progress::Stepped
        })
    }

    /// Does what `count` calls of [`step`](Run::step) do, and reads task and program once. It stops early at the finish or at a refusal, and
    /// gives the steps made. A `count` above 4,096 counts as 4,096. Questions 25 to 27 and 31 come first, even when it is 0.
    ///
    /// Here alone, and for the run alone, a refusal may change what was lent: the run has the position after the last good step. The error
    /// says how many were made.
    ///
    /// A page that makes forty steps whenever it is loaded:
    ///
    /// ```
    /// use planning_program::{Run, StepsRefusal, Task};
    /// # use std::error::Error;
    ///
    /// fn load_page(run: &mut Run, task: &Task, program: &[u8]) -> Result<(), StepsRefusal> {
    ///     let made = run.steps(task, program, 40)?;
    ///     println!("{made} steps more, now in case {}", run.case());
    ///     Ok(())
    /// }
    ///
    /// let task = Task::check(include_bytes!("../../../samples/tree-traversal/task.bin"))?;
    /// let plan = include_bytes!("../../../samples/tree-traversal/plan.bin");
    /// let program = task.check_plan(plan)?.program;
    ///
    /// let mut run = Run::start(&task);
    /// let mut loads = 0;
    /// while !run.is_finished() {
    ///     load_page(&mut run, &task, &program)?;
    ///     loads += 1;
    /// }
    /// // 40, 40 and 31 steps.
    /// assert_eq!((loads, run.steps_made()), (3, 111));
    /// # Ok::<(), Box<dyn Error>>(())
    /// ```
    pub fn steps(&mut self, task: &Task, program: &[u8], count: u64) -> Result<u16, StepsRefusal> {
        made(raw::steps(task.bytes(), program, count, &mut self.record))
    }

    /// The facts that are true: fact f is bit f.
    pub fn facts(&self) -> u64 {
        self.record.facts
    }

    /// The case at hand, or the number of cases when the run is finished.
    pub fn case(&self) -> u8 {
        self.record.case
    }

    /// The steps made, over all cases together.
    pub fn steps_made(&self) -> u16 {
        self.record.steps
    }

    /// The call stack: procedure and line of each frame, the lowest first.
    pub fn frames(&self) -> &[[u8; 2]] {
        let frames = &self.record.frames;
        // A record from outside may claim more frames than there are; a step says no to it.
        &frames[..frames.len().min(self.record.depth.into())]
    }

    /// Whether all cases are finished: the call stack is empty.
    pub fn is_finished(&self) -> bool {
        self.record.depth == 0
    }

    /// The record, to be stored.
    pub fn record(&self) -> &raw::Run {
        &self.record
    }
}

/// A run from a stored record. Any record will do: whether it can be a position of a task is asked by [`Run::step`], [`Run::steps`] and
/// [`Run::add_case`], as question 31.
impl From<raw::Run> for Run {
    fn from(record: raw::Run) -> Run {
        Run { record }
    }
}

#[cfg(test)]
mod tests {
    use super::Run;
    use crate::{raw, Refusal, StepsRefusal, Task};

    const PROGRAM: [u8; 9] = [2, 2, 0, 1, 0, 0, 4, 0, 0];

    fn task() -> Task<'static> {
        Task::check(include_bytes!("../../../samples/double-click/task.bin"))
            .expect("a task that passes")
    }

    #[test]
    fn a_record_with_too_many_frames() {
        let task = task();
        let stored = raw::Run {
            depth: 255,
            ..*Run::start(&task).record()
        };
        let mut run = Run::from(stored);
        assert_eq!(run.frames().len(), 16);
        let refusal = Refusal {
            question: 31,
            place: 0,
        };
        assert_eq!(run.step(&task, &PROGRAM), Err(refusal));
        let no_step = StepsRefusal { refusal, made: 0 };
        assert_eq!(run.steps(&task, &PROGRAM, 0), Err(no_step));
        assert_eq!(*run.record(), stored);
    }

    #[test]
    fn steps_up_to_the_finish() {
        let task = task();
        let mut run = Run::start(&task);
        assert_eq!(run.steps(&task, &PROGRAM, 0), Ok(0));
        assert_eq!(run, Run::start(&task));
        assert_eq!(run.steps(&task, &PROGRAM, 3), Ok(3));
        assert_eq!((run.case(), run.steps_made()), (1, 3));
        assert_eq!(run.steps(&task, &PROGRAM, u64::MAX), Ok(2));
        assert!(run.is_finished());
        assert_eq!(run.steps(&task, &PROGRAM, 40), Ok(0));
    }

    /// Line 0 jumps to itself while fact 1 is false, and the task allows 4,096 steps.
    #[test]
    fn no_more_than_4096_steps_in_a_call() {
        let mut bytes = task().bytes().to_vec();
        bytes[8..10].copy_from_slice(&4096_u16.to_le_bytes());
        let task = Task::check(&bytes).expect("a task that passes");
        let program = [2, 0, 1, 4, 0, 0, 0, 0, 0];
        let refusal = Refusal {
            question: 14,
            place: 4096,
        };
        for count in [4096, 4097, 1 << 16, 1 << 32, u64::MAX] {
            let mut run = Run::start(&task);
            assert_eq!(run.steps(&task, &program, count), Ok(4096));
            assert_eq!(run.steps_made(), 4096);
            let no_step = StepsRefusal { refusal, made: 0 };
            assert_eq!(run.steps(&task, &program, 1), Err(no_step));
        }
        let mut run = Run::start(&task);
        assert_eq!(run.steps(&task, &program, 4095), Ok(4095));
        let one_step = StepsRefusal { refusal, made: 1 };
        assert_eq!(run.steps(&task, &program, 2), Err(one_step));
    }

    /// Line 1 is empty, and the run is there after one step.
    #[test]
    fn steps_before_a_refusal_are_kept() {
        let task = task();
        let program = [2, 2, 0, 0, 0, 0, 4, 0, 0];
        let mut run = Run::start(&task);
        for made in [1, 0] {
            let refusal = Refusal {
                question: 28,
                place: 1,
            };
            let answer = run.steps(&task, &program, 40);
            assert_eq!(answer, Err(StepsRefusal { refusal, made }));
            assert_eq!((run.frames(), run.steps_made()), (&[[0, 1]][..], 1));
        }
    }
}
