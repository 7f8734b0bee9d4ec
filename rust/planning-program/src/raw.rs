//! The library's entries as they are. The `pp_` functions are the C interface: pointers and lengths in, a packed answer out. Beside each
//! stands a safe function over slices, for callers that want to ask an entry about any bytes at all.

use std::mem::{offset_of, size_of};

/// A run record, laid out as the library has it.
#[repr(C)]
#[derive(Clone, Copy, Debug, PartialEq, Eq)]
pub struct Run {
    /// The facts that are true.
    pub facts: u64,
    /// The steps made.
    pub steps: u16,
    /// The case at hand, or the number of cases when the run is finished.
    pub case: u8,
    /// The number of frames.
    pub depth: u8,
    /// Procedure and line of each frame, the lowest first; `[0, 0]` beyond `depth`.
    pub frames: [[u8; 2]; 16],
}

// The layout that docs/FORMATS.md fixes.
const _: () = assert!(
    size_of::<Run>() == 48
        && offset_of!(Run, facts) == 0
        && offset_of!(Run, steps) == 8
        && offset_of!(Run, case) == 10
        && offset_of!(Run, depth) == 11
        && offset_of!(Run, frames) == 12
);

/// An answer: 0 and a value, or the number of the first question whose answer is no and its place.
#[derive(Clone, Copy, Debug, PartialEq, Eq)]
pub struct Answer {
    /// 0, or the question.
    pub number: u32,
    /// The value, or the place.
    pub value: u32,
}

impl Answer {
    /// The two numbers of a packed answer, `number * 2^32 + value`.
    #[inline]
    pub const fn unpacked(packed: u64) -> Answer {
        Answer {
            number: (packed >> 32) as u32,
            value: packed as u32,
        }
    }
}

/// The answer of [`steps`]: 0, or the number of the first question whose answer is no and its place; and in either case the steps made.
#[derive(Clone, Copy, Debug, PartialEq, Eq)]
pub struct StepsAnswer {
    /// 0, or the question.
    pub number: u32,
    /// The place, or 0.
    pub place: u32,
    /// The steps that this call made.
    pub made: u16,
}

impl StepsAnswer {
    /// The three numbers of a packed answer, `number * 2^48 + made * 2^32 + place`.
    #[inline]
    pub const fn unpacked(packed: u64) -> StepsAnswer {
        StepsAnswer {
            number: (packed >> 48) as u32,
            place: packed as u32,
            made: (packed >> 32) as u16,
        }
    }
}

/// Questions 1 to 9 of a task.
#[inline]
pub fn check_task(task: &[u8]) -> Answer {
    // SAFETY: the pointer and the length are those of a live slice, which the entry only reads.
    Answer::unpacked(unsafe { pp_check_task(task.as_ptr(), task.len()) })
}

/// The checker. On acceptance the value is the number of steps, and `program` starts with the program's bytes.
#[inline]
pub fn check_plan(task: &[u8], plan: &[u8], program: &mut [u8]) -> Answer {
    over_slices(pp_check_plan, task, plan, program)
}

/// The writer. On acceptance the value is the number of steps, and `plan` starts with the plan's bytes.
#[inline]
pub fn write_plan(task: &[u8], program: &[u8], plan: &mut [u8]) -> Answer {
    over_slices(pp_write_plan, task, program, plan)
}

/// The single step. The value is 1 after a step, and 0 where the run is finished already.
#[inline]
pub fn step(task: &[u8], program: &[u8], run: &mut Run) -> Answer {
    // SAFETY: the pointers and the lengths are those of live slices, which the entry only reads; the record is borrowed for the entry alone,
    // so it is aligned, has all its bytes and overlaps neither slice.
    Answer::unpacked(unsafe {
        pp_step(
            task.as_ptr(),
            task.len(),
            program.as_ptr(),
            program.len(),
            run,
        )
    })
}

/// A number of single steps, at most 4,096; a greater `count` counts as 4,096. They stop early at the finish or at a refusal. Here alone, and
/// for the record alone, a refusal may change what was lent: `run` has the position after the last good step.
#[inline]
pub fn steps(task: &[u8], program: &[u8], count: u64, run: &mut Run) -> StepsAnswer {
    // SAFETY: as for the single step.
    StepsAnswer::unpacked(unsafe {
        pp_steps(
            task.as_ptr(),
            task.len(),
            program.as_ptr(),
            program.len(),
            count,
            run,
        )
    })
}

/// Adds a case to the task in the first `task_len` bytes of `buffer`, or in all of them if there are fewer, under an open run. The value is
/// the task's new length.
#[inline]
pub fn add_case(
    buffer: &mut [u8],
    task_len: usize,
    start: u64,
    goal_true: u64,
    goal_false: u64,
    run: &Run,
) -> Answer {
    // SAFETY: the pointer and the first length are those of a live slice, borrowed for the entry alone, which so does not overlap the record;
    // that one is aligned, has all its bytes and is only read.
    Answer::unpacked(unsafe {
        pp_add_case(
            buffer.as_mut_ptr(),
            buffer.len(),
            task_len,
            start,
            goal_true,
            goal_false,
            run,
        )
    })
}

/// What the checker and the writer have in common: two slices that are read and a buffer that is filled.
type Entry = unsafe extern "C" fn(*const u8, usize, *const u8, usize, *mut u8, usize) -> u64;

#[inline]
fn over_slices(entry: Entry, task: &[u8], other: &[u8], buffer: &mut [u8]) -> Answer {
    // SAFETY: the pointers and the lengths are those of live slices. The entry reads the first two and writes within the third alone, which
    // is borrowed for it alone and so overlaps neither.
    Answer::unpacked(unsafe {
        entry(
            task.as_ptr(),
            task.len(),
            other.as_ptr(),
            other.len(),
            buffer.as_mut_ptr(),
            buffer.len(),
        )
    })
}

extern "C" {
    /// See [`check_task`]. The caller owes `task_len` bytes at `task`; any pointer serves a length of 0.
    pub fn pp_check_task(task: *const u8, task_len: usize) -> u64;

    /// See [`check_plan`]. The caller owes valid memory of the given lengths, `program` apart from the two others; any pointer serves a
    /// length of 0.
    pub fn pp_check_plan(
        task: *const u8,
        task_len: usize,
        plan: *const u8,
        plan_len: usize,
        program: *mut u8,
        program_len: usize,
    ) -> u64;

    /// See [`write_plan`]. The caller owes valid memory of the given lengths, `plan` apart from the two others; any pointer serves a length
    /// of 0.
    pub fn pp_write_plan(
        task: *const u8,
        task_len: usize,
        program: *const u8,
        program_len: usize,
        plan: *mut u8,
        plan_len: usize,
    ) -> u64;

    /// See [`step`]. The caller owes valid memory of the given lengths and an aligned record apart from both; any pointer serves a length
    /// of 0, but not as `run`.
    pub fn pp_step(
        task: *const u8,
        task_len: usize,
        program: *const u8,
        program_len: usize,
        run: *mut Run,
    ) -> u64;

    /// See [`steps`]. The caller owes what [`pp_step`] asks for; any `count` will do.
    pub fn pp_steps(
        task: *const u8,
        task_len: usize,
        program: *const u8,
        program_len: usize,
        count: u64,
        run: *mut Run,
    ) -> u64;

    /// See [`add_case`]. The caller owes `buffer_len` bytes at `buffer`, where any pointer serves a length of 0, and an aligned record apart
    /// from them; any `task_len` and any sets will do.
    pub fn pp_add_case(
        buffer: *mut u8,
        buffer_len: usize,
        task_len: usize,
        start: u64,
        goal_true: u64,
        goal_false: u64,
        run: *const Run,
    ) -> u64;
}

#[cfg(test)]
mod tests {
    use super::StepsAnswer;

    #[test]
    fn three_numbers_of_a_packed_answer() {
        let answer = |number, made, place| StepsAnswer {
            number,
            place,
            made,
        };
        for (packed, unpacked) in [
            (0x0000_0028_0000_0000, answer(0, 40, 0)),
            (0x000e_0000_0000_1000, answer(14, 0, 4096)),
            (0x001c_0fff_fedc_ba98, answer(28, 4095, 0xfedc_ba98)),
            (u64::MAX, answer(0xffff, 0xffff, 0xffff_ffff)),
        ] {
            assert_eq!(StepsAnswer::unpacked(packed), unpacked);
        }
    }
}
