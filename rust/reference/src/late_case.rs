//! A late case: one more case record put into the task under an open run, which is only read.
//! Questions 31 to 34 and 6 for the new case, all with place 0.

use crate::answer::{ask, at, Answer, Question, Refusal};
use crate::facts::Literals;
use crate::records::{head, CASE, CLOSING, CLOSING_BYTES, HEAD_BYTES};
use crate::run::Run;
use crate::task::{Case, Task, CASE_BYTES, MAX_CASES};

const RECORD_BYTES: usize = HEAD_BYTES + CASE_BYTES;

/// The task is the first bytes of the buffer, all of them if the length is above the buffer's.
/// Answers the task's new length.
pub fn add_case(
    buffer: &mut [u8],
    task_len: usize,
    start: u64,
    goal_true: u64,
    goal_false: u64,
    run: &Run,
) -> Answer {
    let goal = Literals {
        positive: goal_true,
        negative: goal_false,
    };
    add(buffer, task_len, Case { start, goal }, run).into()
}

fn add(buffer: &mut [u8], task_len: usize, case: Case, run: &Run) -> Result<u32, Refusal> {
    let task_len = task_len.min(buffer.len());
    let (task_file, spare) = buffer.split_at(task_len);
    let mut task = Task::empty();
    task.read(task_file)?;
    ask_late(&task, run, spare.len(), &case).map_err(at(0))?;
    // The task has passed, so its last bytes are the closing record's.
    let new_len = task_len + RECORD_BYTES;
    fill(&mut buffer[task_len - CLOSING_BYTES..new_len], &case);
    Ok(new_len as u32)
}

fn ask_late(task: &Task, run: &Run, spare: usize, case: &Case) -> Result<(), Question> {
    ask(31, run.is_possible(task))?;
    ask(32, !run.is_finished())?;
    ask(33, task.case_count < MAX_CASES)?;
    ask(34, spare >= RECORD_BYTES)?;
    ask(6, case.well_formed(task.known_facts()))
}

/// Writes the case and the closing record into just their bytes.
fn fill(end: &mut [u8], case: &Case) {
    let (case_head, rest) = end.split_at_mut(HEAD_BYTES);
    let (body, closing) = rest.split_at_mut(CASE_BYTES);
    case_head.copy_from_slice(&head(CASE_BYTES as u16, CASE));
    let sets = [case.start, case.goal.positive, case.goal.negative];
    for (bytes, set) in body.as_chunks_mut().0.iter_mut().zip(sets) {
        *bytes = set.to_le_bytes();
    }
    closing.copy_from_slice(&head(0, CLOSING));
}
