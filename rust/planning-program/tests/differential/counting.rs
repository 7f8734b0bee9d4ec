//! Long and deep runs that end: an action adds 1 to a number that the lowest facts hold, and a loop or a recursion goes on until its top bit
//! is true.

use super::task::{Action, Effect, Instruction, Pair, END};

/// Adds 1 to the number in facts 0 to `bits` - 1, and leaves the greatest one as it is.
pub fn count(bits: u8) -> Action {
    let effect = |bit: u8| {
        let (bit, lower) = (1 << bit, (1 << bit) - 1);
        Effect {
            condition: Pair(lower, bit),
            change: Pair(bit, lower),
        }
    };
    Action {
        precondition: Pair::default(),
        effects: (0..bits).map(effect).collect(),
    }
}

/// The lines from 0 on of a procedure that counts until the fact is true, and goes on below.
pub fn count_in_loop(action: u8, fact: u8) -> Vec<Instruction> {
    vec![[1, action, 0], [2, 0, fact]]
}

/// The lines from 0 on of a procedure that counts and calls itself until the fact is true.
pub fn count_in_recursion(action: u8, fact: u8, procedure: u8) -> Vec<Instruction> {
    vec![[1, action, 0], [2, 3, fact], END, [3, procedure, 0], END]
}
