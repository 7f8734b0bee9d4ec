//! One program, on runs of different length: it counts up to a fixed number, and the tasks differ only in the number from which its one case starts.

use super::{numbers, Input};
use crate::entry::Entry;
use planning_program::model::{words::*, Bounds, Effect, TaskBuilder};

const BOUNDS: Bounds = Bounds {
    last_line: 5,
    stack: 1,
    steps: 4096,
};

const LOW_BITS: u32 = 6;
const HIGH_BITS: u32 = 5;

pub fn input(steps: u32) -> Input {
    let lines = vec![
        goto_unless(1, over("high")),
        act("count low"),
        goto_unless(1, over("low")),
        act("count high"),
        goto_unless(1, over("high")),
        end(),
    ];
    let entries = [Entry::CheckPlan, Entry::WritePlan];
    Input::written(task(steps), vec![lines], steps, &entries)
}

/// The shortest of these runs, on which steps are measured as well.
pub fn shortest() -> Input {
    let mut input = input(64);
    input.entries.extend([Entry::Step, Entry::Steps40]);
    input
}

fn task(steps: u32) -> TaskBuilder {
    let [low, high] = [counter("low", LOW_BITS), counter("high", HIGH_BITS)];
    let [low_start, high_start] = starts(steps);
    let count = case("count")
        .start(bits_of(low_start, &low))
        .start(bits_of(high_start, &high))
        .goal([is(over("high"))]);
    TaskBuilder::new(BOUNDS)
        .facts(&low)
        .facts(&high)
        .actions([
            action("count low").effects(counting(&low, None)),
            action("count high").effects(counting(&high, Some(over("low")))),
        ])
        .procedures(numbers(1))
        .cases([count])
}

/// A counter's facts: its bits, the lowest first, and one that is true when it has run over.
fn counter(name: &str, bits: u32) -> Vec<String> {
    let bits = (0..bits).map(|bit| format!("{name} {bit}"));
    bits.chain([over(name)]).collect()
}

fn over(counter: &str) -> String {
    format!("{counter} over")
}

/// The facts of a counter that are true when it has this value.
fn bits_of(value: u32, counter: &[String]) -> impl Iterator<Item = &String> {
    let bits = counter.iter().enumerate();
    bits.filter(move |(bit, _)| value >> bit & 1 == 1)
        .map(|(_, fact)| fact)
}

/// The effects that add 1 to a counter, of which one fires: the lowest 0 and the 1s below it change, and another fact is lowered too.
fn counting(counter: &[String], lowered: Option<String>) -> Vec<Effect> {
    let effect = |zero: usize| {
        let (ones, raised) = (&counter[..zero], &counter[zero]);
        when(ones.iter().map(is).chain([not(raised)]))
            .raises([raised])
            .lowers(ones.iter().chain(&lowered))
    };
    (0..counter.len()).map(effect).collect()
}

/// The values of the low and the high counter from which the run has this even number of steps: a goto after each act, and two steps more.
fn starts(steps: u32) -> [u32; 2] {
    let acts = steps / 2 - 1;
    let low_round = 1 << LOW_BITS;
    // One act on the high counter follows each round of the low one. All rounds but the first are whole.
    let rounds = acts.div_ceil(low_round + 1);
    let first_round = acts - rounds - (rounds - 1) * low_round;
    [low_round - first_round, (1 << HIGH_BITS) - rounds]
}
