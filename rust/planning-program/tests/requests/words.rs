//! Answers, buffers and run records as the words of vectors/README.md.

use planning_program::raw::{Answer, Run};

/// The two numbers of an answer.
pub fn shown(answer: Answer) -> String {
    format!("{} {}", answer.number, answer.value)
}

/// Bytes in hexadecimal, `-` for none.
pub fn word(bytes: &[u8]) -> String {
    if bytes.is_empty() {
        return "-".to_string();
    }
    bytes.iter().map(|byte| format!("{byte:02x}")).collect()
}

/// The fields of a run record.
pub fn words_of(run: &Run) -> String {
    let mut words = format!("{} {} {} {}", run.case, run.facts, run.steps, run.depth);
    for [procedure, line] in run.frames {
        words += &format!(" {procedure} {line}");
    }
    words
}
