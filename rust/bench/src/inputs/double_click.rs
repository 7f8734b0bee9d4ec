//! The sample in `samples/double-click`: two cases, five steps.

use super::Input;
use crate::entry::{Entry, Op};

pub fn input() -> Input {
    let mut entries = Entry::EACH.to_vec();
    entries.extend([Op::Act, Op::Goto, Op::End].map(Entry::OneStep));
    Input {
        task: include_bytes!("../../../../samples/double-click/task.bin").to_vec(),
        // goto 2 if fact 0 is false; act 0; end
        program: vec![2, 2, 0, 1, 0, 0, 4, 0, 0],
        plan: include_bytes!("../../../../samples/double-click/plan.bin").to_vec(),
        steps: 5,
        entries,
    }
}
