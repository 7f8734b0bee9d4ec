//! The proved library beside `reference`, which was written from docs/FORMATS.md and shares no code with it.
//!
//! Both get the same 250,000 requests of all seven kinds, made from a seed: sound ones, and damaged ones that aim at every question. The
//! answers must have the same number, value and steps made, and leave the same bytes in the lent buffer, or the same fields in the run
//! record, after refusals and beyond what is filled too. A call for a number of steps must give what as many single steps of the library
//! give. The pairs of an action before the first that fails are counted by the reference, and by the library's verdicts on tasks. A task that
//! a late case was added to must pass; and where that was done under a position of a real run, the same steps must lead there in the longer
//! task. A difference is shown with the seed, the request as a line of vectors/README.md, and both outcomes. Every number but
//! 20 has to come up, and 20 never; and so do steps that raise a fact by one effect and lower it by another, and leave it true.
//!
//! With another seed or more requests, and with the table of answers:
//!
//!     DIFFERENTIAL_SEED=7 DIFFERENTIAL_REQUESTS=5000000 cargo test --test differential -- --nocapture

mod differential {
    pub mod caller;
    mod changes;
    mod comparison;
    mod counting;
    mod damage;
    mod entries;
    mod instructions;
    mod late_cases;
    #[path = "../pairs/mod.rs"]
    mod pairs;
    mod plan_damage;
    mod positions;
    mod program_damage;
    mod programs;
    mod random;
    mod request;
    pub mod round;
    mod samples;
    mod single_steps;
    mod tally;
    mod task;
    mod task_damage;
    mod tasks;
    #[path = "../requests/words.rs"]
    mod words;
}

use std::str::FromStr;

use differential::caller::Caller;
use differential::round::round;

const SEED: u64 = 20_250_711;
const LEAST_REQUESTS: usize = 250_000;
/// How often each of 1 to 19, 21 to 29 and 31 to 34 has to come up.
const LEAST_REFUSALS: usize = 50;
/// How often 0 has to come up for each kind of request.
const LEAST_ACCEPTED: usize = 10_000;
/// How often a pair has to fail.
const LEAST_FAULTS_OF_PAIRS: usize = 1_000;
/// How often each of their questions has to come up for the single step, and for a number of steps.
const LEAST_REFUSALS_OF_STEPS: usize = 20;
/// How often a single step has to raise a fact by one effect and lower it by another.
const LEAST_MEETINGS: usize = 1_000;
/// How often each question of a task has to come up for a late case, and how often each of its own.
const LEAST_REFUSALS_OF_LATE_CASES: [usize; 2] = [20, 500];

#[test]
fn library_and_reference_agree() {
    let seed = setting("DIFFERENTIAL_SEED").unwrap_or(SEED);
    let requests = setting("DIFFERENTIAL_REQUESTS").unwrap_or(LEAST_REQUESTS);
    println!("seed {seed}");
    let mut caller = Caller::new(seed);
    while caller.tally().total() < requests {
        round(&mut caller);
    }
    print!("{}", caller.tally());
    assert!(caller.tally().total() >= LEAST_REQUESTS);
    caller.tally().assert_least(LEAST_REFUSALS, LEAST_ACCEPTED);
    caller.tally().assert_least_of_pairs(LEAST_FAULTS_OF_PAIRS);
    caller
        .tally()
        .assert_least_of_steps(LEAST_REFUSALS_OF_STEPS);
    caller.tally().assert_least_meetings(LEAST_MEETINGS);
    let [of_tasks, of_its_own] = LEAST_REFUSALS_OF_LATE_CASES;
    caller
        .tally()
        .assert_least_of_late_cases(of_tasks, of_its_own);
}

/// A number from the environment, if it is set.
fn setting<T: FromStr>(name: &str) -> Option<T> {
    let value = std::env::var(name).ok()?;
    Some(value.parse().ok().expect("a number"))
}
