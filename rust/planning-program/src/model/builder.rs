//! From the words of a task to its bytes.

use super::action::Action;
use super::bounds::Bounds;
use super::case::Case;
use super::mistake::{in_range, Mistake};
use super::names::{NameKind, NameList, Names};
use super::program::{Procedure, Program};
use super::Model;
use crate::records::{kind, push_record};

/// The parts of a task, gathered in any order. Facts, actions, procedures and cases are each numbered from 0 in the order of being added.
///
/// Names are looked up at the end, by [`TaskBuilder::build`]; the [module's page](super) has an example.
#[derive(Clone, Debug)]
pub struct TaskBuilder {
    bounds: Bounds,
    facts: Vec<String>,
    actions: Vec<Action>,
    procedures: Vec<String>,
    presets: Vec<Procedure>,
    cases: Vec<Case>,
}

impl TaskBuilder {
    /// A task with these bounds and nothing else.
    pub fn new(bounds: Bounds) -> TaskBuilder {
        TaskBuilder {
            bounds,
            facts: Vec::new(),
            actions: Vec::new(),
            procedures: Vec::new(),
            presets: Vec::new(),
            cases: Vec::new(),
        }
    }

    /// Adds facts, 1 to 64 in all.
    pub fn facts(mut self, names: impl IntoIterator<Item = impl Into<String>>) -> TaskBuilder {
        self.facts.extend(names.into_iter().map(Into::into));
        self
    }

    /// Adds actions, 1 to 64 in all.
    pub fn actions(mut self, actions: impl IntoIterator<Item = Action>) -> TaskBuilder {
        self.actions.extend(actions);
        self
    }

    /// Adds procedures, 1 to 8 in all. The first is the main one, at which every case begins.
    pub fn procedures(mut self, names: impl IntoIterator<Item = impl Into<String>>) -> TaskBuilder {
        self.procedures.extend(names.into_iter().map(Into::into));
        self
    }

    /// Presets the lines of procedures: every program of the task holds them. A line that is left empty is not preset.
    ///
    /// ```
    /// use planning_program::model::{words::*, Bounds, TaskBuilder};
    ///
    /// let model = TaskBuilder::new(Bounds { last_line: 2, stack: 2, steps: 10 })
    ///     .facts(["open"])
    ///     .actions([action("shut").needs([is("open")]).effects([always().lowers(["open"])])])
    ///     .procedures(["main", "close the entries"])
    ///     .presets([procedure("close the entries", [goto_unless(2, "open"), act("shut"), end()])])
    ///     .cases([case("open").start(["open"]).goal([not("open")])])
    ///     .build()?;
    /// let program = model.program([procedure("main", [call("close the entries"), end()])])?;
    /// assert_eq!(model.listing(&program), "\
    /// procedure 0 main
    /// 0 call close the entries
    /// 1 end
    /// 2 empty
    /// procedure 1 close the entries
    /// 0 goto 2 unless open
    /// 1 act shut
    /// 2 end
    /// ");
    /// # Ok::<(), planning_program::model::Mistake>(())
    /// ```
    pub fn presets(mut self, procedures: impl IntoIterator<Item = Procedure>) -> TaskBuilder {
        self.presets.extend(procedures);
        self
    }

    /// Adds cases, 1 to 32 in all. A run takes them in this order.
    pub fn cases(mut self, cases: impl IntoIterator<Item = Case>) -> TaskBuilder {
        self.cases.extend(cases);
        self
    }

    /// The task with its bytes, which pass the questions 1 to 9, or the first mistake in its description.
    pub fn build(self) -> Result<Model, Mistake> {
        self.bounds.check()?;
        let names = self.names()?;
        let mut presets = Program::empty(names.procedures.count(), self.bounds.last_line);
        for procedure in &self.presets {
            presets.fill(procedure, &names)?;
        }
        let task = self.task_file(&names, &presets)?;
        Ok(Model {
            names,
            bounds: self.bounds,
            presets,
            task,
        })
    }

    fn names(&self) -> Result<Names, Mistake> {
        let actions = self.actions.iter().map(|action| action.name.clone());
        let cases = self.cases.iter().map(|case| case.name.clone());
        Ok(Names {
            facts: NameList::new(NameKind::Fact, self.facts.clone())?,
            actions: NameList::new(NameKind::Action, actions.collect())?,
            procedures: NameList::new(NameKind::Procedure, self.procedures.clone())?,
            cases: NameList::new(NameKind::Case, cases.collect())?,
        })
    }

    /// The task file: bounds, actions, preset lines, cases, and the closing record.
    fn task_file(&self, names: &Names, presets: &Program) -> Result<Vec<u8>, Mistake> {
        let mut file = Vec::new();
        push_record(&mut file, kind::BOUNDS, &bounds_body(self.bounds, names));
        for action in &self.actions {
            push_record(&mut file, kind::ACTION, &action_body(action, names)?);
        }
        for (procedure, line, instruction) in presets.written_lines() {
            let [op, p, q] = instruction.bytes();
            push_record(&mut file, kind::PRESET, &[procedure, line, op, p, q]);
        }
        for case in &self.cases {
            push_record(&mut file, kind::CASE, &case_body(case, names)?);
        }
        push_record(&mut file, kind::CLOSING, &[]);
        Ok(file)
    }
}

fn bounds_body(bounds: Bounds, names: &Names) -> [u8; 6] {
    // Both counts were seen to be in their ranges, 64 and 8 at most.
    let facts = names.facts.count() as u8;
    let procedures = names.procedures.count() as u8;
    let [low, high] = bounds.steps.to_le_bytes();
    [facts, procedures, bounds.last_line, bounds.stack, low, high]
}

fn action_body(action: &Action, names: &Names) -> Result<Vec<u8>, Mistake> {
    let place = format!("action `{}`", action.name);
    in_range(format!("{place}: effects"), action.effects.len(), 0..=8)?;
    let mut body = set_bytes(&names.pair(&action.precondition, &place)?);
    for effect in &action.effects {
        body.extend(set_bytes(&names.pair(&effect.condition, &place)?));
        body.extend(set_bytes(&names.pair(&effect.change, &place)?));
    }
    Ok(body)
}

fn case_body(case: &Case, names: &Names) -> Result<Vec<u8>, Mistake> {
    let (start, goal) = names.case_sets(case)?;
    Ok(set_bytes(&[start, goal.true_facts, goal.false_facts]))
}

/// Eight bytes for each fact set.
fn set_bytes(sets: &[u64]) -> Vec<u8> {
    sets.iter().flat_map(|set| set.to_le_bytes()).collect()
}
