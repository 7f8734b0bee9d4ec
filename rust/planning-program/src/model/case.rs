//! Cases in words: where a run starts, and what it has to reach.

use super::action::Literal;

/// A case: the facts that are true at its start, all others being false, and its goal.
#[derive(Clone, Debug, PartialEq, Eq)]
pub struct Case {
    pub(super) name: String,
    pub(super) start: Vec<String>,
    pub(super) goal: Vec<Literal>,
}

/// A case with this name, in which nothing is true and nothing is wanted until [`Case::start`] and [`Case::goal`] say more.
pub fn case(name: impl Into<String>) -> Case {
    Case {
        name: name.into(),
        start: Vec::new(),
        goal: Vec::new(),
    }
}

impl Case {
    /// Adds facts that are true at the start.
    pub fn start(mut self, facts: impl IntoIterator<Item = impl Into<String>>) -> Case {
        self.start.extend(facts.into_iter().map(Into::into));
        self
    }

    /// Adds to the goal.
    pub fn goal(mut self, literals: impl IntoIterator<Item = Literal>) -> Case {
        self.goal.extend(literals);
        self
    }
}
