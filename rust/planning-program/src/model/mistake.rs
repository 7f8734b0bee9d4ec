//! What can be wrong with a description, told in its own names.

use super::names::NameKind;
use std::error::Error;
use std::fmt;
use std::ops::RangeInclusive;

/// A mistake in the description of a task or a program. A `place` says where it stands, as "action `enter`".
///
/// ```
/// use planning_program::model::{words::*, Bounds, TaskBuilder};
///
/// let mistake = TaskBuilder::new(Bounds { last_line: 2, stack: 1, steps: 5 })
///     .facts(["open", "bib"])
///     .actions([action("enter").needs([is("opne")])])
///     .procedures(["main"])
///     .cases([case("entries are open").start(["open"])])
///     .build()
///     .unwrap_err();
/// assert_eq!(mistake.to_string(), "action `enter`: no fact is named `opne`");
/// ```
#[derive(Clone, Debug, PartialEq, Eq)]
pub enum Mistake {
    /// A name is empty, or has a line break or another control character.
    BadName {
        /// What has the name.
        kind: NameKind,
        /// The name.
        name: String,
    },
    /// Two things of one kind have the same name.
    NamedTwice {
        /// What has the name.
        kind: NameKind,
        /// The name.
        name: String,
    },
    /// Nothing of this kind has this name.
    Unknown {
        /// What was looked for.
        kind: NameKind,
        /// The name that nothing has.
        name: String,
        /// Where the name was used.
        place: String,
    },
    /// A count or a bound is out of its range.
    OutOfRange {
        /// What was counted, or which bound it is.
        what: String,
        /// How many there are, or the bound's value.
        value: usize,
        /// The least that is allowed.
        least: usize,
        /// The most that is allowed.
        most: usize,
    },
    /// A fact has to be both true and false, or is both raised and lowered by one effect.
    BothWays {
        /// The fact.
        fact: String,
        /// Where it is named both ways.
        place: String,
    },
    /// The instruction may not stand on its line, or goes to a line that does not exist.
    NotAllowed {
        /// The instruction, in names.
        instruction: String,
        /// The line.
        place: String,
    },
    /// The line is given twice, or is preset and given again.
    LineTwice {
        /// The line.
        place: String,
    },
}

impl fmt::Display for Mistake {
    fn fmt(&self, f: &mut fmt::Formatter) -> fmt::Result {
        match self {
            Mistake::BadName { kind, name } => write!(f, "{name:?} is no name for a {kind}"),
            Mistake::NamedTwice { kind, name } => write!(f, "two {kind}s are named `{name}`"),
            Mistake::Unknown { kind, name, place } => {
                write!(f, "{place}: no {kind} is named `{name}`")
            }
            Mistake::OutOfRange {
                what,
                value,
                least,
                most,
            } => write!(f, "{what}: {value} is not in {least} to {most}"),
            Mistake::BothWays { fact, place } => write!(f, "{place}: `{fact}` stands both ways"),
            Mistake::NotAllowed { instruction, place } => {
                write!(f, "{place}: `{instruction}` may not stand here")
            }
            Mistake::LineTwice { place } => write!(f, "{place}: the line is given twice"),
        }
    }
}

impl Error for Mistake {}

/// A mistake where the value is not in the range.
pub(super) fn in_range(
    what: impl Into<String>,
    value: usize,
    range: RangeInclusive<usize>,
) -> Result<(), Mistake> {
    if range.contains(&value) {
        return Ok(());
    }
    Err(Mistake::OutOfRange {
        what: what.into(),
        value,
        least: *range.start(),
        most: *range.end(),
    })
}
