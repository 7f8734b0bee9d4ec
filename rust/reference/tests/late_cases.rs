//! Late cases for the double-click task: the bytes that are written, each refusal and the order of the questions, and runs that go on.

mod double_click;

use double_click::{
    answer, finished, open, positions, record, sets, DoubleClick, MARK, PROGRAM, TASK,
};
use reference::{add_case, check_task, steps, Answer, Run, StepsAnswer};

/// A case's start, and the facts that its goal wants true and wants false.
type Sets = [u64; 3];

const FIRST_CASE: Sets = [1, 2, 1];

/// Two cases of three steps and one of two are finished after so many.
const EIGHT_STEPS: DoubleClick = DoubleClick {
    step_bound: 8,
    ..TASK
};

/// The task in a buffer with so many bytes to spare.
fn with_spare(task: &[u8], spare: usize) -> Vec<u8> {
    [task, &vec![MARK; spare]].concat()
}

/// The task with one case more.
fn longer(task: &[u8], case: Sets) -> Vec<u8> {
    let (records, closing) = task.split_at(task.len() - 4);
    [records, &record(4, &sets(&case)), closing].concat()
}

/// The task with as many cases, the new ones like the first.
fn with_cases(count: usize) -> Vec<u8> {
    let task = EIGHT_STEPS.bytes();
    (2..count).fold(task, |task, _| longer(&task, FIRST_CASE))
}

fn ask(buffer: &mut [u8], task_len: usize, case: Sets, run: &Run) -> Answer {
    let [start, goal_true, goal_false] = case;
    add_case(buffer, task_len, start, goal_true, goal_false, run)
}

/// The case is added, and no other byte is changed.
#[track_caller]
fn accepted(task: &[u8], spare: usize, case: Sets, run: &Run) {
    let mut buffer = with_spare(task, spare);
    let len = task.len() + 28;
    let found = ask(&mut buffer, task.len(), case, run);
    assert_eq!(found, answer(0, len as u32));
    assert_eq!(buffer, with_spare(&longer(task, case), spare - 28));
    assert_eq!(check_task(&buffer[..len]), answer(0, 0));
}

/// The refusal leaves the buffer as it was.
#[track_caller]
fn refused(buffer: &[u8], task_len: usize, case: Sets, run: &Run, expected: Answer) {
    let mut after = buffer.to_vec();
    assert_eq!(ask(&mut after, task_len, case, run), expected);
    assert_eq!(after, buffer);
}

#[test]
fn spare_bytes() {
    let task = TASK.bytes();
    for run in &positions()[..5] {
        for spare in 0..28 {
            let buffer = with_spare(&task, spare);
            refused(&buffer, 122, FIRST_CASE, run, answer(34, 0));
        }
        for spare in 28..60 {
            accepted(&task, spare, FIRST_CASE, run);
        }
    }
}

#[test]
fn lengths_of_the_task() {
    let task = TASK.bytes();
    let run = &positions()[0];
    let starts = [0, 10, 62, 90, 118];
    let buffer = with_spare(&task, 40);
    for len in 0..122 {
        let cut = starts.into_iter().rfind(|&start| start <= len);
        let place = cut.expect("the first record starts at 0") as u32;
        refused(&buffer, len, FIRST_CASE, run, answer(1, place));
    }
    for len in [123, 150, 161, 162, 163, usize::MAX] {
        refused(&buffer, len, FIRST_CASE, run, answer(9, 122));
    }
    // A length above the buffer's is the buffer's, so nothing is to spare.
    for len in [122, 123, 150, usize::MAX] {
        refused(&task, len, FIRST_CASE, run, answer(34, 0));
        refused(&[], len, FIRST_CASE, run, answer(1, 0));
    }
}

#[test]
fn facts_of_the_new_case() {
    let run = &positions()[0];
    for facts in [2, 3, 63, 64] {
        let task = DoubleClick { facts, ..TASK }.bytes();
        let last = 1 << (facts - 1);
        for case in [[last, 0, 0], [0, last, 0], [0, 0, last], [last, last, 1]] {
            accepted(&task, 28, case, run);
        }
        let mut wrong = vec![[0, last, last], [0, 3, 2], [1, 1, 1]];
        if facts < 64 {
            let beyond = 1 << facts;
            wrong.extend([[beyond, 0, 0], [0, beyond, 0], [0, 0, beyond]]);
            wrong.extend([[1 << 63, 0, 0], [0, 1 << 63, 0], [0, 0, 1 << 63]]);
        }
        for case in wrong {
            let buffer = with_spare(&task, 28);
            refused(&buffer, 122, case, run, answer(6, 0));
        }
    }
}

#[test]
fn no_more_than_32_cases() {
    let run = &positions()[0];
    for count in 2..32 {
        accepted(&with_cases(count), 28, FIRST_CASE, run);
    }
    let full = with_cases(32);
    let buffer = with_spare(&full, 28);
    refused(&buffer, full.len(), FIRST_CASE, run, answer(33, 0));
}

#[test]
fn positions_that_are_not_open() {
    let two_cases = TASK.bytes();
    let three_cases = longer(&two_cases, FIRST_CASE);
    let table = [
        (&two_cases, finished(2, 2, 5), 32),
        // On the longer task case 2 would be open.
        (&three_cases, finished(2, 2, 5), 31),
        (&two_cases, finished(1, 2, 5), 31),
        (&two_cases, finished(2, 4, 5), 31),
        (&two_cases, finished(2, 2, 6), 31),
        (&two_cases, open(2, 2, 0, 5), 31),
        (&two_cases, open(3, 1, 0, 0), 31),
        (&two_cases, open(0, 4, 0, 0), 31),
        (&two_cases, open(0, 1, 3, 0), 31),
        (&two_cases, open(0, 1, 0, 6), 31),
    ];
    for (task, run, number) in table {
        let buffer = with_spare(task, 28);
        refused(&buffer, task.len(), FIRST_CASE, &run, answer(number, 0));
    }
}

/// Each row has the faults of all rows below it too.
#[test]
fn order_of_the_questions() {
    let unknown_fact = [4, 0, 0];
    let full = with_cases(32);
    let room_for_one = with_cases(31);
    let impossible = open(32, 2, 0, 8);
    let start = open(0, 1, 0, 0);
    let len = full.len();
    let table = [
        (&full[..len - 1], impossible, answer(1, len as u32 - 4)),
        (&full, impossible, answer(31, 0)),
        (&full, finished(32, 2, 8), answer(32, 0)),
        (&full, start, answer(33, 0)),
        (&room_for_one, start, answer(34, 0)),
    ];
    for (task, run, expected) in table {
        refused(task, task.len(), unknown_fact, &run, expected);
    }
    let buffer = with_spare(&room_for_one, 28);
    refused(&buffer, len - 28, unknown_fact, &start, answer(6, 0));
    accepted(&room_for_one, 28, FIRST_CASE, &start);
}

/// The same steps lead to the same record on the longer task, and from there to its finish.
#[test]
fn open_runs_go_on() {
    let task = EIGHT_STEPS.bytes();
    for (count, &run) in positions()[..5].iter().enumerate() {
        accepted(&task, 28, FIRST_CASE, &run);
        let task = longer(&task, FIRST_CASE);
        let mut other = positions()[0];
        let made = |made| StepsAnswer {
            number: 0,
            place: 0,
            made,
        };
        let from_start = steps(&task, &PROGRAM, count as u64, &mut other);
        assert_eq!((from_start, other), (made(count as u16), run));
        let to_finish = steps(&task, &PROGRAM, 40, &mut other);
        let left = made(8 - count as u16);
        assert_eq!((to_finish, other), (left, finished(3, 2, 8)));
    }
}
