//! What the library touches of the memory that it is lent: nothing outside the given lengths, nothing at all when it refuses, and the first
//! bytes of the buffer alone when it accepts; for a late case those from the closing record on. A record that was moved on by several steps is
//! the one thing that a refusal leaves changed.

mod requests;

use planning_program::raw::{self, Answer, StepsAnswer};
use planning_program::{plan_len, Run, Task};
use requests::{of_kind, shown_steps_with_run, shown_with_buffer, shown_with_run, Vector};
use std::ptr::{from_mut, null, null_mut};

/// An entry that reads two slices and fills a buffer.
type Filling = fn(&[u8], &[u8], &mut [u8]) -> Answer;

/// An entry that moves a record on: the answer and the record afterwards in words, and whether a step was made.
type Moving = fn(&Vector, &[u8], &[u8], &mut raw::Run) -> (String, bool);

const TASK: &[u8] = include_bytes!("../../../samples/double-click/task.bin");
const PLAN: &[u8] = include_bytes!("../../../samples/double-click/plan.bin");
const PROGRAM: &[u8] = &[2, 2, 0, 1, 0, 0, 4, 0, 0];

/// A case for that task, like its first one: start, and the facts that its goal wants true and wants false.
const CASE: [u64; 3] = [1, 2, 1];

/// What that case puts in place of the closing record.
const CASE_AND_CLOSING: &[u8; 32] =
    b"\x18\0\x04\0\x01\0\0\0\0\0\0\0\x02\0\0\0\0\0\0\0\x01\0\0\0\0\0\0\0\0\0\x05\0";

/// Where the records of that task and of that plan start, after docs/FORMATS.md.
const TASK_RECORDS: [usize; 5] = [0, 10, 62, 90, 118];
const PLAN_RECORDS: [usize; 6] = [0, 9, 18, 27, 36, 45];

fn accepted(value: u32) -> Answer {
    Answer { number: 0, value }
}

fn refused(number: u32, place: u32) -> Answer {
    Answer {
        number,
        value: place,
    }
}

/// The values that guard bytes take in turn: an answer that hangs on a byte outside differs under some of them.
const GUARDS: [u8; 3] = [0x00, 0xff, 0xa5];

/// An odd number, so that what stands behind it is not aligned.
const MARGIN: usize = 61;

/// Bytes with guard bytes on both sides.
#[derive(PartialEq, Debug)]
struct Guarded(Vec<u8>);

impl Guarded {
    fn new(bytes: &[u8], guard: u8) -> Guarded {
        let margin = [guard; MARGIN];
        Guarded([&margin, bytes, &margin].concat())
    }

    fn bytes(&self) -> &[u8] {
        &self.0[MARGIN..self.0.len() - MARGIN]
    }

    fn bytes_mut(&mut self) -> &mut [u8] {
        let end = self.0.len() - MARGIN;
        &mut self.0[MARGIN..end]
    }
}

/// A run record with guard bytes on both sides.
#[repr(C)]
#[derive(PartialEq, Debug)]
struct GuardedRun {
    before: [u8; 64],
    run: raw::Run,
    after: [u8; 64],
}

impl GuardedRun {
    fn new(run: raw::Run, guard: u8) -> GuardedRun {
        let (before, after) = ([guard; 64], [guard; 64]);
        GuardedRun { before, run, after }
    }
}

/// Every one of these with each of the guards.
fn guarded<T: Copy>(each: impl IntoIterator<Item = T>) -> impl Iterator<Item = (T, u8)> {
    each.into_iter()
        .flat_map(|one| GUARDS.map(|guard| (one, guard)))
}

#[test]
fn tasks_between_guards() {
    for (v, guard) in guarded(&of_kind("task")) {
        let task = Guarded::new(&v.task(), guard);
        assert_eq!(raw::check_task(task.bytes()), v.answer());
        assert_eq!(task, Guarded::new(&v.task(), guard), "line {}", v.line);
    }
}

/// Asks an entry all its requests between guards. `filled` says how many bytes an acceptance with so many steps fills.
fn fill_between_guards(kind: &str, entry: Filling, filled: fn(&Task, usize) -> usize) {
    for (v, guard) in guarded(&of_kind(kind)) {
        let [task, other] = [v.task(), v.other()].map(|bytes| Guarded::new(&bytes, guard));
        let mut buffer = Guarded::new(&v.buffer(), guard);
        let answer = entry(task.bytes(), other.bytes(), buffer.bytes_mut());
        assert_eq!(shown_with_buffer(answer, buffer.bytes()), v.expected);
        let filled = match Task::check(task.bytes()) {
            Ok(task) if answer.number == 0 => filled(&task, answer.value as usize),
            _ => 0,
        };
        let mut expected = v.buffer();
        expected[..filled].copy_from_slice(&buffer.bytes()[..filled]);
        assert_eq!(buffer, Guarded::new(&expected, guard), "line {}", v.line);
        assert_eq!(task, Guarded::new(&v.task(), guard), "line {}", v.line);
        assert_eq!(other, Guarded::new(&v.other(), guard), "line {}", v.line);
    }
}

#[test]
fn checks_between_guards() {
    fill_between_guards("check", raw::check_plan, |task, _| task.program_len());
}

#[test]
fn writes_between_guards() {
    fill_between_guards("write", raw::write_plan, |_, steps| plan_len(steps));
}

/// Asks an entry all its requests, each with its record between guards. One that makes no step leaves the record as it was.
fn move_between_guards(kind: &str, entry: Moving) {
    for (v, guard) in guarded(&of_kind(kind)) {
        let [task, program] = [v.task(), v.other()].map(|bytes| Guarded::new(&bytes, guard));
        let mut lent = GuardedRun::new(v.run(), guard);
        let (answer, stepped) = entry(v, task.bytes(), program.bytes(), &mut lent.run);
        assert_eq!(answer, v.expected);
        let expected = if stepped { lent.run } else { v.run() };
        assert_eq!(lent, GuardedRun::new(expected, guard), "line {}", v.line);
        assert_eq!(task, Guarded::new(&v.task(), guard), "line {}", v.line);
        assert_eq!(program, Guarded::new(&v.other(), guard), "line {}", v.line);
    }
}

#[test]
fn single_steps_between_guards() {
    move_between_guards("step", |_, task, program, run| {
        let answer = raw::step(task, program, run);
        (shown_with_run(answer, run), answer == accepted(1))
    });
}

#[test]
fn steps_between_guards() {
    move_between_guards("steps", |v, task, program, run| {
        let answer = raw::steps(task, program, v.count(), run);
        (shown_steps_with_run(answer, run), answer.made > 0)
    });
}

/// The entry for a late case. Its pointer to the record could be written through, so that a write would be seen.
fn add_case(buffer: &mut [u8], task_len: usize, sets: [u64; 3], run: &mut raw::Run) -> Answer {
    let [start, goal_true, goal_false] = sets;
    let run = from_mut(run).cast_const();
    // SAFETY: the pointer and the first length are those of a live slice, and both borrows are for the entry alone.
    Answer::unpacked(unsafe {
        raw::pp_add_case(
            buffer.as_mut_ptr(),
            buffer.len(),
            task_len,
            start,
            goal_true,
            goal_false,
            run,
        )
    })
}

#[test]
fn late_cases_between_guards() {
    for (v, guard) in guarded(&of_kind("late")) {
        let mut buffer = Guarded::new(&v.task(), guard);
        let mut lent = GuardedRun::new(v.run(), guard);
        let answer = add_case(buffer.bytes_mut(), v.task_len(), v.sets(), &mut lent.run);
        assert_eq!(shown_with_buffer(answer, buffer.bytes()), v.expected);
        let mut expected = v.task();
        if answer.number == 0 {
            let end = answer.value as usize;
            let filled = end - CASE_AND_CLOSING.len()..end;
            expected[filled.clone()].copy_from_slice(&buffer.bytes()[filled]);
        }
        assert_eq!(buffer, Guarded::new(&expected, guard), "line {}", v.line);
        assert_eq!(lent, GuardedRun::new(v.run(), guard), "line {}", v.line);
    }
}

/// Lends a task with so many bytes behind it, and asks for the case with this length of the task. An acceptance changes what it has to and no
/// more, and a refusal nothing.
#[track_caller]
fn late_case_gets(task: &[u8], spare: usize, task_len: usize, expected: Answer) {
    for guard in GUARDS {
        let before = [task, &vec![!guard; spare]].concat();
        let mut buffer = Guarded::new(&before, guard);
        let mut lent = GuardedRun::new(fresh(), guard);
        let answer = add_case(buffer.bytes_mut(), task_len, CASE, &mut lent.run);
        assert_eq!(answer, expected, "{spare} bytes to spare");
        let mut after = before;
        if answer.number == 0 {
            after[task.len() - 4..][..32].copy_from_slice(CASE_AND_CLOSING);
        }
        assert_eq!(buffer, Guarded::new(&after, guard), "{spare} to spare");
        assert_eq!(lent, GuardedRun::new(fresh(), guard), "{spare} to spare");
    }
}

#[test]
fn task_buffers_of_each_length() {
    for spare in 0..28 {
        late_case_gets(TASK, spare, TASK.len(), refused(34, 0));
    }
    for spare in 28..=64 {
        late_case_gets(TASK, spare, TASK.len(), accepted(150));
    }
}

/// A length above the buffer's is the buffer's, so nothing is to spare then.
#[test]
fn each_length_of_the_task_in_its_buffer() {
    for len in 0..TASK.len() {
        let answer = refused(1, cut_at(&TASK_RECORDS, len));
        late_case_gets(TASK, 28, len, answer);
    }
    for len in (TASK.len() + 1..=TASK.len() + 30).chain([usize::MAX]) {
        late_case_gets(TASK, 28, len, refused(9, 122));
        late_case_gets(TASK, 0, len, refused(34, 0));
    }
}

/// Lends a buffer of each length up to twice the bytes that are due. One that is too short gets the refusal and keeps its bytes.
fn lend_each_length(entry: Filling, other: &[u8], due: &[u8], too_short: Answer) {
    for (len, guard) in guarded(0..=2 * due.len()) {
        let mut expected = vec![!guard; len];
        let mut buffer = Guarded::new(&expected, guard);
        let answer = entry(TASK, other, buffer.bytes_mut());
        if let Some(start) = expected.get_mut(..due.len()) {
            start.copy_from_slice(due);
            assert_eq!(answer, accepted(5), "{len} bytes");
        } else {
            assert_eq!(answer, too_short, "{len} bytes");
        }
        assert_eq!(buffer, Guarded::new(&expected, guard), "{len} bytes");
    }
}

#[test]
fn program_buffers_of_each_length() {
    lend_each_length(raw::check_plan, PLAN, PROGRAM, refused(10, 0));
}

#[test]
fn plan_buffers_of_each_length() {
    lend_each_length(raw::write_plan, PROGRAM, PLAN, refused(29, 49));
}

/// The entry gives this refusal and leaves its buffer as it was.
fn filling_refused(entry: Filling, task: &[u8], other: &[u8], answer: Answer) {
    let mut buffer = [0xee; 64];
    assert_eq!(entry(task, other, &mut buffer), answer);
    assert_eq!(buffer, [0xee; 64]);
}

/// The single step gives this refusal, and so does any number of steps; the record is left as it was.
fn step_refused(task: &[u8], program: &[u8], answer: Answer) {
    let fresh = fresh();
    let mut run = fresh;
    assert_eq!(raw::step(task, program, &mut run), answer);
    for count in [0, 1, 40, u64::MAX] {
        let given = raw::steps(task, program, count, &mut run);
        assert_eq!(given, no_step(answer), "{count} steps");
    }
    assert_eq!(run, fresh);
}

/// A refusal of a number of steps, in which none was made.
fn no_step(refusal: Answer) -> StepsAnswer {
    StepsAnswer {
        number: refusal.number,
        place: refusal.value,
        made: 0,
    }
}

/// A fresh record for the task.
fn fresh() -> raw::Run {
    let task = Task::check(TASK).expect("a task that passes");
    *Run::start(&task).record()
}

/// Every entry refuses this task.
fn task_refused(task: &[u8], answer: Answer) {
    assert_eq!(raw::check_task(task), answer);
    filling_refused(raw::check_plan, task, PLAN, answer);
    filling_refused(raw::write_plan, task, PROGRAM, answer);
    step_refused(task, PROGRAM, answer);
    for spare in [0, 28] {
        late_case_gets(task, spare, task.len(), answer);
    }
}

/// Where a file with these records is cut off when it has so many bytes.
fn cut_at(records: &[usize], len: usize) -> u32 {
    let last = records.iter().rfind(|&&start| start <= len);
    *last.expect("the first record starts at 0") as u32
}

/// What was cut off still follows in memory, so a read beyond the length would find it.
#[test]
fn each_cut_of_the_task() {
    for len in 0..TASK.len() {
        task_refused(&TASK[..len], refused(1, cut_at(&TASK_RECORDS, len)));
    }
}

#[test]
fn each_cut_of_the_plan() {
    for len in 0..PLAN.len() {
        let answer = refused(11, cut_at(&PLAN_RECORDS, len));
        filling_refused(raw::check_plan, TASK, &PLAN[..len], answer);
    }
}

#[test]
fn files_with_bytes_behind_their_end() {
    for (more, byte) in guarded(1..=9) {
        let [task, plan] = [TASK, PLAN].map(|file| [file, &vec![byte; more]].concat());
        task_refused(&task, refused(9, 122));
        filling_refused(raw::check_plan, TASK, &plan, refused(24, 49));
    }
}

#[test]
fn programs_of_another_length() {
    let twice = [PROGRAM, PROGRAM].concat();
    for len in (0..=twice.len()).filter(|&len| len != PROGRAM.len()) {
        filling_refused(raw::write_plan, TASK, &twice[..len], refused(25, 0));
        step_refused(TASK, &twice[..len], refused(25, 0));
    }
}

/// A null pointer stands for no bytes, in the place of each slice of each entry that answers with two numbers.
#[test]
fn null_pointers() {
    let [task, plan, program] = [TASK, PLAN, PROGRAM].map(<[u8]>::as_ptr);
    let [task_len, plan_len, program_len] = [TASK, PLAN, PROGRAM].map(<[u8]>::len);
    let (mut buffer, mut run) = ([0xee; 64], fresh());
    let room = buffer.as_mut_ptr();
    // SAFETY: each pointer is null with a length of 0, or that of a live slice with its length; only the buffer and the record are written.
    let packed = unsafe {
        [
            raw::pp_check_task(null(), 0),
            raw::pp_check_plan(null(), 0, plan, plan_len, room, 64),
            raw::pp_check_plan(task, task_len, null(), 0, room, 64),
            raw::pp_check_plan(task, task_len, plan, plan_len, null_mut(), 0),
            raw::pp_write_plan(null(), 0, program, program_len, room, 64),
            raw::pp_write_plan(task, task_len, null(), 0, room, 64),
            raw::pp_write_plan(task, task_len, program, program_len, null_mut(), 0),
            raw::pp_step(null(), 0, program, program_len, &mut run),
            raw::pp_step(task, task_len, null(), 0, &mut run),
            raw::pp_add_case(null_mut(), 0, 0, 1, 2, 1, &run),
            raw::pp_add_case(null_mut(), 0, task_len, 1, 2, 1, &run),
            raw::pp_add_case(null_mut(), 0, usize::MAX, 1, 2, 1, &run),
        ]
    };
    let answers = packed.map(Answer::unpacked);
    assert_eq!(answers[0], refused(1, 0));
    assert_eq!(
        answers[1..4],
        [refused(1, 0), refused(11, 0), refused(10, 0)]
    );
    assert_eq!(
        answers[4..7],
        [refused(1, 0), refused(25, 0), refused(29, 49)]
    );
    assert_eq!(answers[7..9], [refused(1, 0), refused(25, 0)]);
    assert_eq!(answers[9..], [refused(1, 0); 3]);
    assert_eq!((buffer, run), ([0xee; 64], fresh()));
}

/// The same for a number of steps.
#[test]
fn null_pointers_for_steps() {
    let mut run = fresh();
    // SAFETY: as above; only the record is written.
    let packed = unsafe {
        [
            raw::pp_steps(null(), 0, PROGRAM.as_ptr(), PROGRAM.len(), 40, &mut run),
            raw::pp_steps(TASK.as_ptr(), TASK.len(), null(), 0, 40, &mut run),
        ]
    };
    let expected = [refused(1, 0), refused(25, 0)].map(no_step);
    assert_eq!(packed.map(StepsAnswer::unpacked), expected);
    assert_eq!(run, fresh());
}
