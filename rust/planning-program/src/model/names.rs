//! The names of facts, actions, procedures and cases, and the numbers that stand for them in the files.

use super::action::Literal;
use super::case::Case;
use super::instruction::Instruction;
use super::mistake::{in_range, Mistake};
use crate::late_case::Goal;
use std::fmt;

/// What a name is the name of.
#[derive(Clone, Copy, Debug, PartialEq, Eq)]
pub enum NameKind {
    /// A fact, which is true or false.
    Fact,
    /// An action.
    Action,
    /// A procedure of the program.
    Procedure,
    /// A case, with its start and its goal.
    Case,
}

impl NameKind {
    /// How many a task may have.
    fn most(self) -> usize {
        match self {
            NameKind::Fact | NameKind::Action => 64,
            NameKind::Procedure => 8,
            NameKind::Case => 32,
        }
    }
}

impl fmt::Display for NameKind {
    fn fmt(&self, f: &mut fmt::Formatter) -> fmt::Result {
        f.write_str(match self {
            NameKind::Fact => "fact",
            NameKind::Action => "action",
            NameKind::Procedure => "procedure",
            NameKind::Case => "case",
        })
    }
}

/// The names of one kind in the order of their numbers, from 0.
#[derive(Clone, Debug, PartialEq, Eq)]
pub struct NameList {
    kind: NameKind,
    names: Vec<String>,
}

impl NameList {
    /// The list, if there are as many as a task may have, each with a name of its own.
    pub(super) fn new(kind: NameKind, names: Vec<String>) -> Result<NameList, Mistake> {
        in_range(format!("{kind}s"), names.len(), 1..=kind.most())?;
        for (number, name) in names.iter().enumerate() {
            let name = name.clone();
            if name.is_empty() || name.contains(char::is_control) {
                return Err(Mistake::BadName { kind, name });
            }
            if names[..number].contains(&name) {
                return Err(Mistake::NamedTwice { kind, name });
            }
        }
        Ok(NameList { kind, names })
    }

    /// How many names there are.
    pub fn count(&self) -> usize {
        self.names.len()
    }

    /// The names in the order of their numbers.
    pub fn iter(&self) -> impl Iterator<Item = &str> {
        self.names.iter().map(String::as_str)
    }

    /// The name with this number.
    pub fn name(&self, number: u8) -> Option<&str> {
        self.names.get(usize::from(number)).map(String::as_str)
    }

    /// The number of this name.
    pub fn number(&self, name: &str) -> Option<u8> {
        let number = self.names.iter().position(|known| known == name)?;
        // A list has at most 64 names.
        Some(number as u8)
    }

    /// The number of a name that is used at a place.
    pub(super) fn find(&self, name: &str, place: &str) -> Result<u8, Mistake> {
        self.number(name).ok_or_else(|| Mistake::Unknown {
            kind: self.kind,
            name: name.to_string(),
            place: place.to_string(),
        })
    }
}

/// All names of a task.
#[derive(Clone, Debug, PartialEq, Eq)]
pub struct Names {
    /// The facts.
    pub facts: NameList,
    /// The actions.
    pub actions: NameList,
    /// The procedures; number 0 is the main one.
    pub procedures: NameList,
    /// The cases.
    pub cases: NameList,
}

impl Names {
    /// The names of the facts in a set, as of those that are true in a run.
    pub fn facts_in(&self, set: u64) -> Vec<&str> {
        let facts = self.facts.iter().enumerate();
        facts
            .filter(|(fact, _)| set >> fact & 1 == 1)
            .map(|(_, name)| name)
            .collect()
    }

    /// The set of the facts with these names.
    fn fact_set(&self, names: &[String], place: &str) -> Result<u64, Mistake> {
        names
            .iter()
            .try_fold(0, |set, name| Ok(set | 1 << self.facts.find(name, place)?))
    }

    /// The facts that literals want true, and those that they want false. None may be both.
    pub(super) fn pair(&self, literals: &[Literal], place: &str) -> Result<[u64; 2], Mistake> {
        let mut pair = [0; 2];
        for literal in literals {
            let fact = 1 << self.facts.find(&literal.fact, place)?;
            let [wanted, other] = if literal.truth { [0, 1] } else { [1, 0] };
            pair[wanted] |= fact;
            if pair[other] & fact != 0 {
                return Err(Mistake::BothWays {
                    fact: literal.fact.clone(),
                    place: place.to_string(),
                });
            }
        }
        Ok(pair)
    }

    /// The facts that are true at a case's start, and its goal.
    pub(super) fn case_sets(&self, case: &Case) -> Result<(u64, Goal), Mistake> {
        let place = format!("case `{}`", case.name);
        let start = self.fact_set(&case.start, &place)?;
        let [true_facts, false_facts] = self.pair(&case.goal, &place)?;
        let goal = Goal {
            true_facts,
            false_facts,
        };
        Ok((start, goal))
    }

    /// An instruction with the numbers of the names in it.
    pub(super) fn numbered(
        &self,
        instruction: &Instruction<String>,
        place: &str,
    ) -> Result<Instruction, Mistake> {
        let instruction = instruction.clone();
        instruction.translated(|kind, name| self.list(kind).find(&name, place))
    }

    /// An instruction with the name for the number in it, if it has one.
    pub fn named(&self, instruction: Instruction) -> Option<Instruction<&str>> {
        let name = |kind, number| self.list(kind).name(number).ok_or(());
        instruction.translated(name).ok()
    }

    fn list(&self, kind: NameKind) -> &NameList {
        match kind {
            NameKind::Fact => &self.facts,
            NameKind::Action => &self.actions,
            NameKind::Procedure => &self.procedures,
            NameKind::Case => &self.cases,
        }
    }
}
