//! A case that is added to a task while a run in it is open.

use crate::raw;
use crate::refusal::{value, Refusal};
use crate::run::Run;

/// The bytes by which a case makes a task longer.
pub const CASE_LEN: usize = 28;

/// What has to hold at the end of a case. A goal that names a fact on both sides is turned down.
#[derive(Clone, Copy, Debug, Default, PartialEq, Eq)]
pub struct Goal {
    /// The facts that have to be true: fact f is bit f.
    pub true_facts: u64,
    /// The facts that have to be false.
    pub false_facts: u64,
}

impl Run {
    /// Adds a case to the task in the first `task_len` bytes of `buffer`, and gives the task's new length, [`CASE_LEN`] more. The run is open
    /// and goes on with the longer task: if it was reached by steps from the start, it is where the same steps lead there.
    ///
    /// `start` has the facts that are true at the case's start; all others are false. The case becomes the last one. The bytes of `buffer`
    /// behind the longer task keep their value, and a refusal leaves all of them as they were. A `task_len` above the buffer's length counts
    /// as that length. Questions 1 to 9 about the task and 31 about the run; 32, the run is finished; 33, there are 32 cases already; 34,
    /// `buffer` has fewer than [`CASE_LEN`] bytes behind the task; and 6 about the new case, with the place 0.
    ///
    /// An organiser thinks of a third click while the second is being run:
    ///
    /// ```
    /// use planning_program::{Goal, Run, Task, CASE_LEN};
    /// # use std::error::Error;
    ///
    /// let program = [2, 2, 0, 1, 0, 0, 4, 0, 0];
    /// let mut buffer = include_bytes!("../../../samples/double-click/task.bin").to_vec();
    /// let len = buffer.len();
    /// // The task's own step bound of 5 is what its two cases take, 3 and 2 steps. The third takes 3 more.
    /// buffer[8..10].copy_from_slice(&8_u16.to_le_bytes());
    /// buffer.resize(len + CASE_LEN, 0);
    ///
    /// let task = Task::check(&buffer[..len])?;
    /// let mut run = Run::start(&task);
    /// run.steps(&task, &program, 3)?;
    /// assert_eq!(run.case(), 1);
    ///
    /// // From fact 0 true to fact 1 true and fact 0 false.
    /// let goal = Goal { true_facts: 0b10, false_facts: 0b01 };
    /// let len = run.add_case(&mut buffer, len, 0b01, goal)?;
    ///
    /// let task = Task::check(&buffer[..len])?;
    /// assert_eq!(task.cases(), 3);
    /// run.steps(&task, &program, 40)?;
    /// assert!(run.is_finished());
    /// assert_eq!((run.case(), run.steps_made()), (3, 8));
    /// # Ok::<(), Box<dyn Error>>(())
    /// ```
    ///
    /// [`Model::case_sets`](crate::model::Model::case_sets) gives start and goal of a case in names.
    pub fn add_case(
        &self,
        buffer: &mut [u8],
        task_len: usize,
        start: u64,
        goal: Goal,
    ) -> Result<usize, Refusal> {
        let Goal {
            true_facts,
            false_facts,
        } = goal;
        let record = self.record();
        let answer = raw::add_case(buffer, task_len, start, true_facts, false_facts, record);
        value(answer).map(|len| len as usize)
    }
}

#[cfg(test)]
mod tests {
    use super::{Goal, CASE_LEN};
    use crate::{raw, Refusal, Run, Task};

    const TASK: &[u8; 122] = include_bytes!("../../../samples/double-click/task.bin");

    const GOAL: Goal = Goal {
        true_facts: 0b10,
        false_facts: 0b01,
    };

    /// A start with a fact that the task has not.
    const WRONG: u64 = 0b100;

    fn start() -> Run {
        Run::start(&Task::check(TASK).expect("a task that passes"))
    }

    fn with_spare(task: &[u8], spare: usize) -> Vec<u8> {
        [task, &vec![0xee; spare]].concat()
    }

    /// The task with so many cases, added one after the other to its own two.
    fn with_cases(count: u8) -> Vec<u8> {
        let mut buffer = TASK.to_vec();
        for cases in 3..=count {
            let len = buffer.len();
            buffer.extend([0; CASE_LEN]);
            let longer = start().add_case(&mut buffer, len, 0b01, GOAL);
            assert_eq!(longer, Ok(buffer.len()));
            let task = Task::check(&buffer).expect("a task that passes");
            assert_eq!(task.cases(), cases);
        }
        buffer
    }

    /// The refusal of a case with this start leaves the buffer as it was.
    #[track_caller]
    fn refused(run: Run, task: &[u8], spare: usize, start: u64, [question, place]: [usize; 2]) {
        let mut buffer = with_spare(task, spare);
        let refusal = Refusal {
            question: question as u8,
            place: place as u32,
        };
        let answer = run.add_case(&mut buffer, task.len(), start, GOAL);
        assert_eq!(answer, Err(refusal));
        assert_eq!(buffer, with_spare(task, spare));
    }

    #[test]
    fn a_case_becomes_the_last_one() {
        let mut buffer = with_spare(TASK, CASE_LEN + 3);
        assert_eq!(start().add_case(&mut buffer, 122, 0b01, GOAL), Ok(150));
        let sets = [0b01, 0b10, 0b01].map(u64::to_le_bytes).concat();
        let case = [&[24, 0, 4, 0][..], &sets].concat();
        let expected = [&TASK[..118], &case, &TASK[118..], &[0xee; 3]].concat();
        assert_eq!(buffer, expected);
    }

    #[test]
    fn facts_of_each_set() {
        for facts in [2, 63, 64] {
            let mut task = *TASK;
            task[4] = facts;
            let asked = |[start, true_facts, false_facts]: [u64; 3]| {
                let mut buffer = with_spare(&task, CASE_LEN);
                let goal = Goal {
                    true_facts,
                    false_facts,
                };
                self::start().add_case(&mut buffer, 122, start, goal)
            };
            let refusal = Refusal {
                question: 6,
                place: 0,
            };
            let last = 1 << (facts - 1);
            for sets in [[last, 0, 0], [0, last, 0], [0, 0, last], [last, last, 1]] {
                assert_eq!(asked(sets), Ok(150), "{facts} facts: {sets:?}");
            }
            assert_eq!(asked([0, last, last]), Err(refusal), "{facts} facts");
            if let Some(next) = 1_u64.checked_shl(facts.into()) {
                for sets in [[next, 0, 0], [0, next, 0], [0, 0, next]] {
                    assert_eq!(asked(sets), Err(refusal), "{facts} facts: {sets:?}");
                }
            }
        }
    }

    /// Each call has the faults of all those below it too.
    #[test]
    fn order_of_the_questions() {
        let [room_for_one, full] = [31, 32].map(with_cases);
        let at_the_end = |depth| {
            Run::from(raw::Run {
                case: 32,
                depth,
                ..*start().record()
            })
        };
        let len = full.len();
        refused(at_the_end(1), &full[..len - 1], 0, WRONG, [1, len - 4]);
        refused(at_the_end(1), &full, 0, WRONG, [31, 0]);
        refused(at_the_end(0), &full, 0, WRONG, [32, 0]);
        refused(start(), &full, 0, WRONG, [33, 0]);
        refused(start(), &room_for_one, CASE_LEN - 1, WRONG, [34, 0]);
        refused(start(), &room_for_one, CASE_LEN, WRONG, [6, 0]);
    }

    #[test]
    fn one_fault_each() {
        let [room_for_one, full] = [31, 32].map(with_cases);
        let finished = Run::from(raw::Run {
            case: 2,
            depth: 0,
            ..*start().record()
        });
        refused(finished, TASK, CASE_LEN, 0b01, [32, 0]);
        // On a longer task a case is open, so a frame is missing.
        refused(finished, &room_for_one, CASE_LEN, 0b01, [31, 0]);
        refused(start(), &full, CASE_LEN, 0b01, [33, 0]);
        refused(start(), &room_for_one, CASE_LEN - 1, 0b01, [34, 0]);
        refused(start(), TASK, CASE_LEN, WRONG, [6, 0]);
    }
}
