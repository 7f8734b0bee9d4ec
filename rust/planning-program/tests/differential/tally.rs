//! How often each answer's number came up, for each kind of request.

use std::fmt::{self, Display};

use planning_program::raw::Answer;

use super::request::{Outcome, KINDS};

/// The numbers of the questions are below this one.
const NUMBERS: usize = 35;

/// Every number that the library's entries can answer: 20 never says no, and 30 is the program's alone.
fn numbers() -> impl Iterator<Item = usize> {
    (0..NUMBERS).filter(|number| ![20, 30].contains(number))
}

/// The questions of a task.
const OF_TASKS: [usize; 9] = [1, 2, 3, 4, 5, 6, 7, 8, 9];

/// The questions of a single step and of a number of steps that are asked once, behind those of the task.
const ASKED_ONCE: [usize; 4] = [25, 26, 27, 31];
/// Those that are asked before each step.
const ASKED_EACH_STEP: [usize; 5] = [14, 28, 19, 21, 22];
/// Those of a late case behind those of the task, but 6 for its own sets.
const OF_LATE_CASES: [usize; 4] = [31, 32, 33, 34];

/// How often each number came up.
type Counts = [usize; NUMBERS];

pub struct Tally {
    counts: [Counts; KINDS.len()],
    /// Of the numbers of steps, where at least one was made.
    moved: Counts,
    /// How often 6 came up for the sets of a late case.
    new_sets: usize,
    /// How often the steps of a run led to the same position with a case added.
    pub reached: usize,
    /// How often a single step raised a fact by one effect and lowered it by another.
    pub meetings: usize,
}

impl Tally {
    pub const EMPTY: Tally = Tally {
        counts: [[0; NUMBERS]; KINDS.len()],
        moved: [0; NUMBERS],
        new_sets: 0,
        reached: 0,
        meetings: 0,
    };

    /// Counts what the library answered. That must never be 20, for any kind of request, whatever the reference says.
    pub fn count(&mut self, kind: usize, outcome: &Outcome) {
        let Answer { number, value } = outcome.answer;
        assert_ne!(number, 20, "question 20 never says no");
        let index = number as usize;
        self.counts[kind][index] += 1;
        self.moved[index] += usize::from(outcome.made > Some(0));
        // For a task's record 6 is never at 0, where the bounds stand.
        self.new_sets += usize::from((KINDS[kind], number, value) == ("late", 6, 0));
    }

    pub fn total(&self) -> usize {
        self.counts.iter().flatten().sum()
    }

    /// Over all kinds.
    fn of_number(&self, number: usize) -> usize {
        self.counts.iter().map(|counts| counts[number]).sum()
    }

    /// Fails unless each refusal came up so often, and 0 so often for each kind.
    pub fn assert_least(&self, refusals: usize, accepted: usize) {
        for number in numbers().skip(1) {
            let count = self.of_number(number);
            assert!(count >= refusals, "{number} came up {count} times");
        }
        for (kind, counts) in KINDS.iter().zip(&self.counts) {
            assert_each(kind, counts, &[0], accepted);
        }
    }

    /// Fails unless so many actions had a pair that fails.
    pub fn assert_least_of_pairs(&self, faults: usize) {
        let [_, pairs, ..] = &self.counts;
        assert_each("pairs", pairs, &[6], faults);
    }

    /// Fails unless each of their refusals came up so often for the single step, for a number of steps, and after some of that number.
    pub fn assert_least_of_steps(&self, refusals: usize) {
        let [.., step, steps, _] = &self.counts;
        for (kind, counts) in [("step", step), ("steps", steps)] {
            assert_each(kind, counts, &OF_TASKS, refusals);
            assert_each(kind, counts, &ASKED_ONCE, refusals);
            assert_each(kind, counts, &ASKED_EACH_STEP, refusals);
        }
        assert_each("some steps", &self.moved, &ASKED_EACH_STEP, refusals);
    }

    /// Fails unless raising and lowering met so often.
    pub fn assert_least_meetings(&self, meetings: usize) {
        assert!(self.meetings >= meetings, "{} meetings", self.meetings);
    }

    /// Fails unless each question of a task came up so often for a late case, each of its own so often, 6 for its sets among them, and as often
    /// as these a position was reached again.
    pub fn assert_least_of_late_cases(&self, of_tasks: usize, of_its_own: usize) {
        let [.., late] = &self.counts;
        assert_each("late", late, &OF_TASKS, of_tasks);
        assert_each("late", late, &OF_LATE_CASES, of_its_own);
        assert!(self.new_sets >= of_its_own, "{} new sets", self.new_sets);
        assert!(self.reached >= of_its_own, "{} reached", self.reached);
    }
}

fn assert_each(kind: &str, counts: &Counts, numbers: &[usize], least: usize) {
    for &number in numbers {
        let count = counts[number];
        assert!(count >= least, "{number} came up {count} times for {kind}");
    }
}

impl Display for Tally {
    fn fmt(&self, f: &mut fmt::Formatter) -> fmt::Result {
        row(f, "number", KINDS, ["moved", "all"])?;
        for number in numbers() {
            let counts = self.counts.map(|counts| counts[number]);
            let more = [self.moved[number], self.of_number(number)];
            row(f, number, counts, more)?;
        }
        let totals = self.counts.map(|counts| counts.iter().sum());
        row(f, "all", totals, [self.moved.iter().sum(), self.total()])?;
        writeln!(f, "6 for the sets of a late case: {}", self.new_sets)?;
        writeln!(f, "positions reached with a late case: {}", self.reached)?;
        writeln!(f, "steps that raise what they lower: {}", self.meetings)
    }
}

fn row<T: Display>(
    f: &mut fmt::Formatter,
    name: impl Display,
    kinds: [T; KINDS.len()],
    more: [T; 2],
) -> fmt::Result {
    write!(f, "{name:>6}")?;
    for cell in kinds.iter().chain(&more) {
        write!(f, " {cell:>8}")?;
    }
    writeln!(f)
}
