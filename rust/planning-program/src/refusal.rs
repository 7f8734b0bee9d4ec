//! Why a task, a plan, a program or a run is turned down, in numbers and in words.

use crate::raw::{Answer, StepsAnswer};
use std::error::Error;
use std::fmt;

/// A no: the first question, in the order of asking, whose answer is no, and its place. Nothing that was lent has been changed, save the
/// run of a [`StepsRefusal`].
///
/// `docs/FORMATS.md` has the questions. What the place counts is the question's matter: a byte of the file for most, the steps made for a
/// program that is run, the bytes needed for 29. Questions 14 and 19 to 22 are asked of a plan's record, where the place is its offset, and
/// of a program's next step, where it is the steps made before. Question 6 is asked of a task's record, where the place is its offset, and
/// of a case that is to be added, where it is 0.
///
/// ```
/// use planning_program::Refusal;
///
/// let refusal = Refusal { question: 18, place: 27 };
/// assert_eq!(
///     refusal.to_string(),
///     "question 18 at byte 27 of the plan: the step writes a line that is not empty, \
///      or repeats an instruction that the line does not hold",
/// );
/// ```
#[derive(Clone, Copy, Debug, PartialEq, Eq, Hash)]
pub struct Refusal {
    /// The question's number, 1 to 34; 20 never says no.
    pub question: u8,
    /// Its place.
    pub place: u32,
}

/// What the place of a question counts.
#[derive(Clone, Copy)]
enum Place {
    /// The offset in the task file.
    Task,
    /// The offset in the task file; or 0, where no record has sets, for the case that is to be added.
    TaskOrCase,
    /// The offset in the plan file.
    Plan,
    /// The offset in the program.
    Program,
    /// The steps made.
    Steps,
    /// From the checker the offset in the plan; from the others the steps made.
    PlanOrSteps,
    /// The bytes that the buffer would need.
    Needed,
    /// Nothing: it is the same number every time, or there is none.
    Nothing,
}

/// The questions 1 to 34 in order: what the place counts, and what a no says.
const QUESTIONS: [(Place, &str); 34] = [
    (Place::Task, "a record's head or body is cut off"),
    (Place::Task, "a record of this kind may not stand here"),
    (Place::Task, "the record's length is not its kind's"),
    (Place::Task, "there are more than 64 actions or 32 cases"),
    (Place::Task, "a bound is out of its range"),
    (
        Place::TaskOrCase,
        "a set has a fact beyond the task's, or a pair names a fact twice",
    ),
    (
        Place::Task,
        "the preset names a procedure or line that does not exist, or an instruction that is empty or not allowed there",
    ),
    (Place::Task, "the line is preset twice"),
    (Place::Task, "something follows the closing record"),
    (Place::Nothing, "the buffer has no room for the program"),
    (Place::Plan, "a record's head or body is cut off"),
    (
        Place::Plan,
        "the record is neither a step nor the closing record",
    ),
    (Place::Plan, "the record's length is not its kind's"),
    (
        Place::PlanOrSteps,
        "as many steps as the task allows are made already",
    ),
    (
        Place::Plan,
        "the step names a procedure or line that does not exist, or an instruction that is empty or not allowed there",
    ),
    (Place::Plan, "all cases are finished already"),
    (Place::Plan, "the step is not at the line where the run is"),
    (
        Place::Plan,
        "the step writes a line that is not empty, or repeats an instruction that the line does not hold",
    ),
    (
        Place::PlanOrSteps,
        "the action's precondition does not hold",
    ),
    (
        Place::Nothing,
        "never answered: a fact both raised and lowered is true",
    ),
    (Place::PlanOrSteps, "the call stack is full"),
    (
        Place::PlanOrSteps,
        "the case ends, and its goal does not hold",
    ),
    (Place::Plan, "some case is not finished"),
    (Place::Plan, "something follows the closing record"),
    (
        Place::Nothing,
        "the program has not exactly three bytes for each line",
    ),
    (
        Place::Program,
        "the instruction is not allowed on its line",
    ),
    (Place::Program, "a preset line does not hold its preset"),
    (Place::Steps, "the run is at an empty line"),
    (Place::Needed, "the buffer has no room for the plan"),
    (Place::Nothing, "a file is longer than 65,536 bytes"),
    (
        Place::Nothing,
        "the run's record cannot be a position of the task",
    ),
    (Place::Nothing, "the run is finished"),
    (Place::Nothing, "there are 32 cases already"),
    (Place::Nothing, "the buffer has no room for the case"),
];

impl Refusal {
    /// What the no says, in words and without the place.
    pub fn reason(&self) -> &'static str {
        self.row().map_or("there is no such question", |row| row.1)
    }

    /// The question's row in the table, if there is such a question.
    fn row(&self) -> Option<(Place, &'static str)> {
        let index = usize::from(self.question).checked_sub(1)?;
        QUESTIONS.get(index).copied()
    }
}

impl fmt::Display for Refusal {
    fn fmt(&self, f: &mut fmt::Formatter<'_>) -> fmt::Result {
        let Refusal { question, place } = self;
        let s = plural(*place);
        write!(f, "question {question}")?;
        match self.row().map(|row| row.0) {
            Some(Place::TaskOrCase) if *place == 0 => write!(f, " of the new case")?,
            Some(Place::Task | Place::TaskOrCase) => write!(f, " at byte {place} of the task")?,
            Some(Place::Plan) => write!(f, " at byte {place} of the plan")?,
            Some(Place::Program) => write!(f, " at byte {place} of the program")?,
            Some(Place::Steps) => write!(f, " after {place} step{s}")?,
            Some(Place::PlanOrSteps) => write!(
                f,
                " at byte {place} of the plan checked, or after {place} step{s} of the program run"
            )?,
            Some(Place::Needed) => write!(f, ", {place} byte{s} needed")?,
            Some(Place::Nothing) => {}
            None => write!(f, " at {place}")?,
        }
        write!(f, ": {}", self.reason())
    }
}

impl Error for Refusal {}

/// A no to a number of steps: the refusal, and the steps that the call made before it.
///
/// Here alone, and for the run alone, a refusal may change what was lent: the run has the position after the last good step. The place of 14,
/// 19 to 22 and 28 is the number of steps of the whole run, in this call and before.
///
/// ```
/// use planning_program::{Refusal, StepsRefusal};
///
/// let refusal = Refusal { question: 28, place: 43 };
/// assert_eq!(
///     StepsRefusal { refusal, made: 3 }.to_string(),
///     "3 steps made, then question 28 after 43 steps: the run is at an empty line",
/// );
/// ```
#[derive(Clone, Copy, Debug, PartialEq, Eq, Hash)]
pub struct StepsRefusal {
    /// The question that says no, and its place.
    pub refusal: Refusal,
    /// The steps that the call made.
    pub made: u16,
}

impl fmt::Display for StepsRefusal {
    fn fmt(&self, f: &mut fmt::Formatter<'_>) -> fmt::Result {
        let StepsRefusal { refusal, made } = self;
        let s = plural((*made).into());
        write!(f, "{made} step{s} made, then {refusal}")
    }
}

impl Error for StepsRefusal {}

/// What a word ends in behind this number.
fn plural(number: u32) -> &'static str {
    if number == 1 {
        ""
    } else {
        "s"
    }
}

/// The value of an answer, or the refusal.
pub(crate) fn value(answer: Answer) -> Result<u32, Refusal> {
    match u8::try_from(answer.number).expect("a question's number is at most 34") {
        0 => Ok(answer.value),
        question => Err(Refusal {
            question,
            place: answer.value,
        }),
    }
}

/// The steps made, or the refusal beside them.
pub(crate) fn made(answer: StepsAnswer) -> Result<u16, StepsRefusal> {
    let StepsAnswer {
        number,
        place,
        made,
    } = answer;
    let result = value(Answer {
        number,
        value: place,
    });
    result
        .map(|_| made)
        .map_err(|refusal| StepsRefusal { refusal, made })
}

#[cfg(test)]
mod tests {
    use super::{Refusal, StepsRefusal};

    fn shown(question: u8, place: u32) -> String {
        Refusal { question, place }.to_string()
    }

    #[test]
    fn place_in_words() {
        for (question, place, start) in [
            (1, 62, "question 1 at byte 62 of the task: "),
            (6, 10, "question 6 at byte 10 of the task: "),
            (6, 0, "question 6 of the new case: "),
            (9, 122, "question 9 at byte 122 of the task: "),
            (10, 0, "question 10: "),
            (11, 0, "question 11 at byte 0 of the plan: "),
            (
                14,
                36,
                "question 14 at byte 36 of the plan checked, or after 36 steps of the program run: ",
            ),
            (20, 0, "question 20: "),
            (24, 49, "question 24 at byte 49 of the plan: "),
            (25, 0, "question 25: "),
            (26, 3, "question 26 at byte 3 of the program: "),
            (28, 1, "question 28 after 1 step: "),
            (29, 49, "question 29, 49 bytes needed: "),
            (30, 65536, "question 30: "),
            (31, 0, "question 31: "),
            (34, 0, "question 34: "),
        ] {
            let shown = shown(question, place);
            assert!(shown.starts_with(start), "{shown}");
        }
    }

    #[test]
    fn steps_made_in_words() {
        let refusal = Refusal {
            question: 28,
            place: 4095,
        };
        for (made, start) in [
            (0, "0 steps made, then question 28 after 4095 steps: "),
            (1, "1 step made, then question 28 after 4095 steps: "),
            (4095, "4095 steps made, then question 28 after 4095 steps: "),
        ] {
            let shown = StepsRefusal { refusal, made }.to_string();
            assert!(shown.starts_with(start), "{shown}");
        }
    }

    #[test]
    fn words_stand_at_their_numbers() {
        for (question, words) in [
            (1, "cut off"),
            (8, "preset twice"),
            (16, "finished already"),
            (19, "precondition"),
            (20, "never answered"),
            (22, "goal"),
            (27, "preset line"),
            (31, "position"),
            (32, "finished"),
            (33, "32 cases"),
            (34, "room for the case"),
        ] {
            let shown = shown(question, 0);
            assert!(shown.contains(words), "{shown}");
        }
    }

    #[test]
    fn numbers_without_a_question() {
        for question in [0, 35, 255] {
            let refusal = Refusal { question, place: 7 };
            assert_eq!(refusal.reason(), "there is no such question");
            assert_eq!(
                refusal.to_string(),
                format!("question {question} at 7: there is no such question")
            );
        }
    }
}
