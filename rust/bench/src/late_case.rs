//! The late case that is measured: a task's last one, which is taken out and added again.

use crate::inputs::Input;
use crate::sides::Side;
use planning_program::CASE_LEN;
use reference::{Answer, Run};
use std::hint::black_box;

const CLOSING: [u8; 4] = [0, 0, 5, 0];

#[derive(Clone, Copy)]
pub struct LateCase {
    /// The bytes of the task without the case.
    task_len: usize,
    /// Start, and the facts that the goal wants true and wants false.
    sets: [u64; 3],
}

impl LateCase {
    pub fn of(input: &Input) -> LateCase {
        // The task without the case is as long as the task up to the case's body.
        let (_, end) = input.task.split_at(input.task.len() - CASE_LEN);
        let set = |at: usize| u64::from_le_bytes(end[at..at + 8].try_into().expect("8 bytes"));
        LateCase {
            task_len: input.task.len() - CASE_LEN,
            sets: [0, 8, 16].map(set),
        }
    }

    /// Closes the task without the case, in a buffer that has the task, and adds the case. Not inlined, so that the stack of the other entries'
    /// calls, and with it the alignment of their block copies, is what it would be without this one.
    #[inline(never)]
    pub fn add(&self, side: &Side, buffer: &mut [u8], run: &Run) -> Answer {
        buffer[self.task_len - CLOSING.len()..self.task_len].copy_from_slice(&CLOSING);
        (side.add_case)(buffer, self.task_len, self.sets, black_box(run))
    }
}
