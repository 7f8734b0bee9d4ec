//! Answers: 0 and a value, or the first question answered no and its place.
//! The numbers are those of the questions in docs/FORMATS.md.

#[derive(Clone, Copy, Debug, PartialEq, Eq)]
pub struct Answer {
    pub number: u32,
    pub value: u32,
}

/// The answer to a number of steps: 0, or the question and its place; and the steps made in either case.
#[derive(Clone, Copy, Debug, PartialEq, Eq)]
pub struct StepsAnswer {
    pub number: u32,
    pub place: u32,
    pub made: u16,
}

/// The number of a question whose answer is no.
pub(crate) type Question = u32;

pub(crate) struct Refusal {
    question: Question,
    place: u32,
}

impl From<Result<u32, Refusal>> for Answer {
    fn from(result: Result<u32, Refusal>) -> Self {
        match result {
            Ok(value) => Answer { number: 0, value },
            Err(refusal) => Answer {
                number: refusal.question,
                value: refusal.place,
            },
        }
    }
}

impl StepsAnswer {
    pub(crate) fn new(result: Result<(), Refusal>, made: u16) -> Self {
        let Answer { number, value } = result.map(|()| 0).into();
        StepsAnswer {
            number,
            place: value,
            made,
        }
    }
}

pub(crate) fn ask(question: Question, yes: bool) -> Result<(), Question> {
    if yes {
        Ok(())
    } else {
        Err(question)
    }
}

pub(crate) fn refuse(question: Question, place: usize) -> Refusal {
    Refusal {
        question,
        place: place as u32,
    }
}

/// Gives a refused question its place.
pub(crate) fn at(place: usize) -> impl FnOnce(Question) -> Refusal {
    move |question| refuse(question, place)
}
