//! Requests, their outcomes, and both as vectors/README.md writes them, save that an outcome of pairs has 0 or 6 before their number.

use std::fmt;

use planning_program::raw::{Answer, Run, StepsAnswer};

use super::entries::Entries;
use super::pairs::PAIR_BYTES;
use super::task::Case;
use super::words::{shown, word, words_of};

#[derive(Clone, Copy)]
pub enum Request<'a> {
    Task {
        task: &'a [u8],
    },
    Pairs {
        facts: u8,
        body: &'a [u8],
    },
    Check {
        task: &'a [u8],
        plan: &'a [u8],
        buffer: &'a [u8],
    },
    Write {
        task: &'a [u8],
        program: &'a [u8],
        buffer: &'a [u8],
    },
    Step {
        task: &'a [u8],
        program: &'a [u8],
        run: Run,
    },
    Steps {
        task: &'a [u8],
        program: &'a [u8],
        count: u64,
        run: Run,
    },
    Late {
        buffer: &'a [u8],
        task_len: usize,
        case: Case,
        run: Run,
    },
}

/// The names of the kinds of requests, in the order of `Request::kind`.
pub const KINDS: [&str; 7] = ["task", "pairs", "check", "write", "step", "steps", "late"];

/// An answer, and all that was lent for writing as it is afterwards.
#[derive(PartialEq)]
pub struct Outcome {
    /// Of a number of steps, the number and the place. Of pairs, 0 or 6, and how many stand before the first that fails.
    pub answer: Answer,
    /// Of a number of steps, how many were made.
    pub made: Option<u16>,
    pub lent: Lent,
}

#[derive(PartialEq)]
pub enum Lent {
    Nothing,
    Buffer(Vec<u8>),
    Record(Run),
}

impl Request<'_> {
    pub fn kind(&self) -> usize {
        match self {
            Request::Task { .. } => 0,
            Request::Pairs { .. } => 1,
            Request::Check { .. } => 2,
            Request::Write { .. } => 3,
            Request::Step { .. } => 4,
            Request::Steps { .. } => 5,
            Request::Late { .. } => 6,
        }
    }

    pub fn answered_by(&self, entries: &Entries) -> Outcome {
        match *self {
            Request::Task { task } => Outcome {
                answer: (entries.check_task)(task),
                made: None,
                lent: Lent::Nothing,
            },
            Request::Pairs { facts, body } => {
                let count = (entries.pairs_before_fault)(facts, body);
                Outcome::of_pairs(count, body)
            }
            Request::Check { task, plan, buffer } => {
                filled(buffer, |buffer| (entries.check_plan)(task, plan, buffer))
            }
            Request::Write {
                task,
                program,
                buffer,
            } => filled(buffer, |buffer| (entries.write_plan)(task, program, buffer)),
            Request::Step {
                task,
                program,
                mut run,
            } => Outcome {
                answer: (entries.step)(task, program, &mut run),
                made: None,
                lent: Lent::Record(run),
            },
            Request::Steps {
                task,
                program,
                count,
                mut run,
            } => {
                let answer = (entries.steps)(task, program, count, &mut run);
                Outcome::of_steps(answer, run)
            }
            Request::Late {
                buffer,
                task_len,
                case,
                run,
            } => filled(buffer, |buffer| {
                (entries.add_case)(buffer, task_len, case, &run)
            }),
        }
    }
}

impl Outcome {
    /// Of the pairs of a body, so many before the first that fails.
    fn of_pairs(count: usize, body: &[u8]) -> Self {
        let all = count == body.len() / PAIR_BYTES;
        Outcome {
            answer: Answer {
                number: if all { 0 } else { 6 },
                value: count as u32,
            },
            made: None,
            lent: Lent::Nothing,
        }
    }

    /// Of a number of steps, with the record afterwards.
    pub fn of_steps(answer: StepsAnswer, run: Run) -> Self {
        Outcome {
            answer: Answer {
                number: answer.number,
                value: answer.place,
            },
            made: Some(answer.made),
            lent: Lent::Record(run),
        }
    }
}

/// Of an entry that gets a copy of the buffer.
fn filled(buffer: &[u8], entry: impl FnOnce(&mut [u8]) -> Answer) -> Outcome {
    let mut buffer = buffer.to_vec();
    let answer = entry(&mut buffer);
    Outcome {
        answer,
        made: None,
        lent: Lent::Buffer(buffer),
    }
}

impl fmt::Display for Request<'_> {
    fn fmt(&self, f: &mut fmt::Formatter) -> fmt::Result {
        let words = match *self {
            Request::Task { task } => word(task),
            Request::Pairs { facts, body } => format!("{facts} {}", word(body)),
            Request::Check {
                task,
                plan: other,
                buffer,
            }
            | Request::Write {
                task,
                program: other,
                buffer,
            } => [task, other, buffer].map(word).join(" "),
            Request::Step { task, program, run } => {
                [word(task), word(program), words_of(&run)].join(" ")
            }
            Request::Steps {
                task,
                program,
                count,
                run,
            } => [word(task), word(program), count.to_string(), words_of(&run)].join(" "),
            Request::Late {
                buffer,
                task_len,
                case: Case { start, goal },
                run,
            } => {
                let (buffer, run) = (word(buffer), words_of(&run));
                format!("{buffer} {task_len} {start} {} {} {run}", goal.0, goal.1)
            }
        };
        write!(f, "{} {words}", KINDS[self.kind()])
    }
}

impl fmt::Display for Outcome {
    fn fmt(&self, f: &mut fmt::Formatter) -> fmt::Result {
        write!(f, "{}", shown(self.answer))?;
        if let Some(made) = self.made {
            write!(f, " {made}")?;
        }
        match &self.lent {
            Lent::Nothing => Ok(()),
            Lent::Buffer(bytes) => write!(f, " {}", word(bytes)),
            Lent::Record(run) => write!(f, " {}", words_of(run)),
        }
    }
}
