//! A caller of the entries, who lends buffers of any content: too short, just long enough, or longer.

use planning_program::raw::Run;

use super::comparison::Comparison;
use super::random::Random;
use super::request::{Lent, Request};
use super::tally::Tally;
use super::task::Case;

pub struct Caller {
    pub random: Random,
    comparison: Comparison,
}

impl Caller {
    pub fn new(seed: u64) -> Self {
        Caller {
            random: Random::new(seed),
            comparison: Comparison::new(seed),
        }
    }

    pub fn tally(&self) -> &Tally {
        &self.comparison.tally
    }

    pub fn check_task(&mut self, task: &[u8]) {
        self.comparison.ask(Request::Task { task });
    }

    pub fn pairs_before_fault(&mut self, facts: u8, body: &[u8]) {
        self.comparison.ask(Request::Pairs { facts, body });
    }

    /// `needed` is about the length that the program has.
    pub fn check_plan(&mut self, task: &[u8], plan: &[u8], needed: usize) {
        let buffer = &self.buffer(needed);
        self.comparison.ask(Request::Check { task, plan, buffer });
    }

    /// The plan that is written; `needed` is about the length that it has. A buffer that is too short is followed by one that just suffices.
    pub fn write_plan(&mut self, task: &[u8], program: &[u8], needed: usize) -> Option<Vec<u8>> {
        let mut buffer = self.buffer(needed);
        loop {
            let outcome = self.comparison.ask(Request::Write {
                task,
                program,
                buffer: &buffer,
            });
            let value = outcome.answer.value as usize;
            match (outcome.answer.number, outcome.lent) {
                (0, Lent::Buffer(mut plan)) => {
                    plan.truncate(9 * value + 4);
                    return Some(plan);
                }
                (29, _) => buffer = self.random.bytes(value),
                _ => return None,
            }
        }
    }

    pub fn step(&mut self, task: &[u8], program: &[u8], run: Run) {
        self.comparison.ask(Request::Step { task, program, run });
    }

    /// A single step that raises these facts by one effect and lowers them by another: it has to be made, and leave them true.
    pub fn meet(&mut self, task: &[u8], program: &[u8], run: Run, both: u64) {
        let outcome = self.comparison.ask(Request::Step { task, program, run });
        assert_eq!(outcome.answer.number, 0, "a step of the run");
        match outcome.lent {
            Lent::Record(after) => assert_eq!(after.facts & both, both, "raised beats lowered"),
            _ => unreachable!("a step is lent a record"),
        }
        self.comparison.tally.meetings += 1;
    }

    pub fn steps(&mut self, task: &[u8], program: &[u8], count: u64, run: Run) {
        self.comparison.ask(Request::Steps {
            task,
            program,
            count,
            run,
        });
    }

    /// The longer task, if the case is added; it has to pass.
    pub fn add_case(
        &mut self,
        buffer: &[u8],
        task_len: usize,
        case: Case,
        run: Run,
    ) -> Option<Vec<u8>> {
        let outcome = self.comparison.ask(Request::Late {
            buffer,
            task_len,
            case,
            run,
        });
        let (0, Lent::Buffer(mut longer)) = (outcome.answer.number, outcome.lent) else {
            return None;
        };
        longer.truncate(outcome.answer.value as usize);
        let task = &longer;
        let passed = self.comparison.ask(Request::Task { task });
        assert_eq!(passed.answer.number, 0, "the longer task");
        Some(longer)
    }

    /// As many steps as the position has made have to lead there from the start.
    pub fn reach(&mut self, task: &[u8], program: &[u8], start: Run, position: Run) {
        let outcome = self.comparison.ask(Request::Steps {
            task,
            program,
            count: position.steps.into(),
            run: start,
        });
        let reached = outcome.lent == Lent::Record(position);
        assert!(reached, "the steps lead elsewhere: {outcome}");
        self.comparison.tally.reached += 1;
    }

    fn buffer(&mut self, needed: usize) -> Vec<u8> {
        let len = match self.random.below(16) {
            0 => 0,
            1 => needed - 1,
            2 => needed + 1,
            3..=5 => needed + self.random.below(40),
            _ => needed,
        };
        self.random.bytes(len)
    }
}
