//! How many pairs of an action's body stand before the first that fails question 6. No C entry answers this; the library's verdicts on tasks
//! with such an action tell it.

use planning_program::raw::{check_task, Answer};

pub const PAIR_BYTES: usize = 16;

/// The number, for a task's facts and a body as long as an action's. Pairs are put in one after the other until one is refused; the whole
/// body has to be refused exactly if one is.
pub fn pairs_before_fault(facts: u8, body: &[u8]) -> usize {
    let pairs = body.len() / PAIR_BYTES;
    let fault = (0..pairs).find(|&pair| !passes(facts, &emptied_behind(body, pair)));
    assert_eq!(passes(facts, body), fault.is_none(), "the whole body");
    fault.unwrap_or(pairs)
}

/// The body with every pair behind this one empty.
fn emptied_behind(body: &[u8], pair: usize) -> Vec<u8> {
    let mut body = body.to_vec();
    body[PAIR_BYTES * (pair + 1)..].fill(0);
    body
}

/// Whether the task passes; the one refusal that it can get is 6 at the action.
fn passes(facts: u8, body: &[u8]) -> bool {
    let Answer { number, value } = check_task(&task(facts, body));
    match (number, value) {
        (0, 0) => true,
        (6, 10) => false,
        _ => panic!("the task gets {number} {value}"),
    }
}

/// A task with this action alone, and with a case of no facts.
fn task(facts: u8, body: &[u8]) -> Vec<u8> {
    let length = (body.len() as u16).to_le_bytes();
    [
        &[6, 0, 1, 0, facts, 1, 1, 1, 1, 0][..],
        &[length, [2, 0]].concat(),
        body,
        &[24, 0, 4, 0],
        &[0; 24],
        &[0, 0, 5, 0],
    ]
    .concat()
}
