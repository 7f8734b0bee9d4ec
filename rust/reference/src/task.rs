//! Tasks: bounds, actions, preset lines and cases, read from the file in one pass.
//! Questions 1 to 9.

use crate::action::Action;
use crate::answer::{ask, at, Answer, Question, Refusal};
use crate::facts::{facts_below, pairs_before_fault, Facts, Literals, PAIR_BYTES};
use crate::instruction::{Instruction, INSTRUCTION_BYTES};
use crate::program::Program;
use crate::records::{Records, ACTION, BOUNDS, CASE, CLOSING, PRESET};
use crate::run::Frame;

pub(crate) const MAX_FACTS: u8 = 64;
pub(crate) const MAX_PROCEDURES: usize = 8;
pub(crate) const MAX_LINES: usize = 32;
pub(crate) const MAX_FRAMES: usize = 16;
pub(crate) const MAX_STEPS: usize = 4096;
const MAX_ACTIONS: usize = 64;
pub(crate) const MAX_CASES: usize = 32;
pub(crate) const CASE_BYTES: usize = 24;

pub fn check_task(task: &[u8]) -> Answer {
    Task::empty().read(task).map(|()| 0).into()
}

#[derive(Clone, Copy, Default)]
pub(crate) struct Case {
    pub start: Facts,
    pub goal: Literals,
}

impl Case {
    /// `None` if the body is not a fact set and a pair.
    fn read(body: &[u8]) -> Option<Self> {
        let (&start, goal) = body.split_first_chunk()?;
        Some(Case {
            start: Facts::from_le_bytes(start),
            goal: Literals::read(goal.try_into().ok()?),
        })
    }

    pub fn well_formed(&self, known: Facts) -> bool {
        self.start & !known == 0 && self.goal.well_formed(known)
    }
}

pub(crate) struct Task<'a> {
    pub facts: u8,
    pub procedures: u8,
    pub last_line: u8,
    pub stack_bound: u8,
    pub step_bound: u16,
    pub actions: [Action<'a>; MAX_ACTIONS],
    pub action_count: usize,
    pub cases: [Case; MAX_CASES],
    pub case_count: usize,
    pub presets: Program,
}

impl<'a> Task<'a> {
    /// A task with nothing read yet; read in place, it is never copied.
    pub fn empty() -> Self {
        Task {
            facts: 0,
            procedures: 0,
            last_line: 0,
            stack_bound: 0,
            step_bound: 0,
            actions: [Action::default(); MAX_ACTIONS],
            action_count: 0,
            cases: [Case::default(); MAX_CASES],
            case_count: 0,
            presets: Program::EMPTY,
        }
    }

    pub fn read(&mut self, file: &'a [u8]) -> Result<(), Refusal> {
        let mut records = Records::new(file);
        let mut previous = None;
        while previous != Some(CLOSING) {
            let place = records.offset();
            let kind = self.add_record(&mut records, previous).map_err(at(place))?;
            previous = Some(kind);
        }
        ask(9, records.at_end()).map_err(at(records.offset()))
    }

    /// Lines of each procedure.
    pub fn height(&self) -> usize {
        usize::from(self.last_line) + 1
    }

    pub fn program_size(&self) -> usize {
        INSTRUCTION_BYTES * usize::from(self.procedures) * self.height()
    }

    /// Where the frame's line begins in the bytes of a program.
    pub fn line_offset(&self, [procedure, line]: Frame) -> usize {
        INSTRUCTION_BYTES * (usize::from(procedure) * self.height() + usize::from(line))
    }

    pub fn known_facts(&self) -> Facts {
        facts_below(self.facts)
    }

    /// The instruction of a preset or a step, if it may stand there and is not empty.
    pub fn instruction(&self, [procedure, line, op, p, q]: [u8; 5]) -> Option<Instruction> {
        if procedure >= self.procedures {
            return None;
        }
        Instruction::decode([op, p, q], line, self).filter(|&found| found != Instruction::Empty)
    }

    fn add_record(
        &mut self,
        records: &mut Records<'a>,
        previous: Option<u16>,
    ) -> Result<u16, Question> {
        let record = records.next_record().ok_or(1u32)?;
        ask(2, may_follow(previous, record.kind))?;
        match record.kind {
            BOUNDS => self.set_bounds(record.body)?,
            ACTION => self.add_action(record.body)?,
            PRESET => self.add_preset(record.body)?,
            CASE => self.add_case(record.body)?,
            _ => ask(3, record.body.is_empty())?,
        }
        Ok(record.kind)
    }

    fn set_bounds(&mut self, body: &[u8]) -> Result<(), Question> {
        let &[facts, procedures, last_line, stack_bound, steps_low, steps_high] = body else {
            return Err(3);
        };
        self.facts = facts;
        self.procedures = procedures;
        self.last_line = last_line;
        self.stack_bound = stack_bound;
        self.step_bound = u16::from_le_bytes([steps_low, steps_high]);
        let in_range = (1..=MAX_FACTS).contains(&facts)
            && (1..=MAX_PROCEDURES).contains(&usize::from(procedures))
            && (2..=MAX_LINES).contains(&self.height())
            && (1..=MAX_FRAMES).contains(&usize::from(stack_bound))
            && (1..=MAX_STEPS).contains(&usize::from(self.step_bound));
        ask(5, in_range)
    }

    fn add_action(&mut self, body: &'a [u8]) -> Result<(), Question> {
        let action = Action::read(body).ok_or(3u32)?;
        ask(4, self.action_count < MAX_ACTIONS)?;
        let pairs = body.len() / PAIR_BYTES;
        ask(6, pairs_before_fault(self.facts, body) == pairs)?;
        self.actions[self.action_count] = action;
        self.action_count += 1;
        Ok(())
    }

    fn add_preset(&mut self, body: &[u8]) -> Result<(), Question> {
        let body: [u8; 5] = body.try_into().map_err(|_| 3u32)?;
        let instruction = self.instruction(body).ok_or(7u32)?;
        let preset = self.presets.line_mut([body[0], body[1]]);
        ask(8, *preset == Instruction::Empty)?;
        *preset = instruction;
        Ok(())
    }

    fn add_case(&mut self, body: &[u8]) -> Result<(), Question> {
        let case = Case::read(body).ok_or(3u32)?;
        ask(4, self.case_count < MAX_CASES)?;
        ask(6, case.well_formed(self.known_facts()))?;
        self.cases[self.case_count] = case;
        self.case_count += 1;
        Ok(())
    }
}

fn may_follow(previous: Option<u16>, kind: u16) -> bool {
    match previous {
        None => kind == BOUNDS,
        Some(BOUNDS) => kind == ACTION,
        Some(ACTION) => matches!(kind, ACTION | PRESET | CASE),
        Some(PRESET) => matches!(kind, PRESET | CASE),
        Some(_) => matches!(kind, CASE | CLOSING),
    }
}
