//! The requests of vectors/level-04.txt and their agreed answers; vectors/README.md says how they are written.

pub mod words;

use planning_program::raw::{Answer, Run, StepsAnswer};
use words::{shown, word, words_of};

/// A request and its agreed answer.
pub struct Vector {
    /// The request's line in the file.
    pub line: usize,
    /// The request, its kind first.
    pub words: Vec<&'static str>,
    /// The answer.
    pub expected: &'static str,
}

/// The kinds of request, and how many the file has of each.
pub const COUNTS: [(&str, usize); 8] = [
    ("task", 22),
    ("check", 152),
    ("write", 123),
    ("step", 123),
    ("steps", 123),
    ("pairs", 43),
    ("late", 93),
    ("print", 50),
];

/// All requests of the file.
pub fn all() -> Vec<Vector> {
    let text = include_str!("../../../../vectors/level-04.txt");
    let lines: Vec<&str> = text.lines().collect();
    let vector = |(k, pair): (usize, &[&'static str])| {
        let line = 2 * k + 1;
        let [request, answer] = pair else {
            panic!("line {line}: a request without an answer");
        };
        let Some(expected) = answer.strip_prefix("= ") else {
            panic!("line {}: not an answer", line + 1);
        };
        Vector {
            line,
            words: request.split(' ').collect(),
            expected,
        }
    };
    lines.chunks(2).enumerate().map(vector).collect()
}

/// The requests of a kind, all of them: a file that was cut fails here.
pub fn of_kind(kind: &str) -> Vec<Vector> {
    let found: Vec<Vector> = all().into_iter().filter(|v| v.words[0] == kind).collect();
    assert!(COUNTS.contains(&(kind, found.len())), "{kind} lines");
    found
}

/// The bytes that a word spells, `-` being none.
fn bytes(word: &str) -> Vec<u8> {
    if word == "-" {
        return Vec::new();
    }
    let byte = |i| u8::from_str_radix(&word[i..i + 2], 16).expect("hexadecimal");
    (0..word.len()).step_by(2).map(byte).collect()
}

/// A number, which must fit its field.
pub fn number<T: TryFrom<u64>>(word: &str) -> T {
    let number: u64 = word.parse().expect("a number");
    T::try_from(number).ok().expect("a number that fits")
}

impl Vector {
    /// The task of the request; of a late request, the buffer that has it.
    pub fn task(&self) -> Vec<u8> {
        bytes(self.words[1])
    }

    /// The plan of a check or print request, the body of a pairs request, the program of any other.
    pub fn other(&self) -> Vec<u8> {
        bytes(self.words[2])
    }

    /// The buffer lent by a check or write request.
    pub fn buffer(&self) -> Vec<u8> {
        bytes(self.words[3])
    }

    /// The number of steps that a steps request asks for.
    pub fn count(&self) -> u64 {
        number(self.words[3])
    }

    /// The task's length in a late request.
    pub fn task_len(&self) -> usize {
        number(self.words[2])
    }

    /// The start of a late request's new case, and the facts that its goal wants true and wants false.
    pub fn sets(&self) -> [u64; 3] {
        [3, 4, 5].map(|word| number(self.words[word]))
    }

    /// The record lent by a step, steps or late request: its last 36 words.
    pub fn run(&self) -> Run {
        let words = self.words.last_chunk::<36>().expect("a record");
        let frame = |k: usize| [number(words[4 + 2 * k]), number(words[5 + 2 * k])];
        Run {
            case: number(words[0]),
            facts: number(words[1]),
            steps: number(words[2]),
            depth: number(words[3]),
            frames: std::array::from_fn(frame),
        }
    }

    /// The two numbers of the agreed answer, which a pairs or print request has not.
    pub fn answer(&self) -> Answer {
        let mut words = self.expected.split(' ').map(number);
        let mut next = || words.next().expect("a number");
        Answer {
            number: next(),
            value: next(),
        }
    }
}

/// An answer and the buffer afterwards.
pub fn shown_with_buffer(answer: Answer, buffer: &[u8]) -> String {
    format!("{} {}", shown(answer), word(buffer))
}

/// An answer and the record afterwards.
pub fn shown_with_run(answer: Answer, run: &Run) -> String {
    format!("{} {}", shown(answer), words_of(run))
}

/// The answer to a number of steps, and the record afterwards.
pub fn shown_steps_with_run(answer: StepsAnswer, run: &Run) -> String {
    let StepsAnswer {
        number,
        place,
        made,
    } = answer;
    format!("{number} {place} {made} {}", words_of(run))
}
