//! Runs: facts, steps done, case and call stack, changed in place by one instruction at a time.
//! Questions 14, 19, 21, 22 and 28 before a step, and 31 on a caller's own run.

use crate::answer::{ask, Question};
use crate::instruction::Instruction;
use crate::program::Program;
use crate::task::{Task, MAX_FRAMES};

/// Procedure and line.
pub(crate) type Frame = [u8; 2];

const UNUSED: Frame = [0, 0];
const FIRST: Frame = [0, 0];

#[repr(C)]
#[derive(Clone, Copy, Debug, PartialEq, Eq)]
pub struct Run {
    pub facts: u64,
    pub steps: u16,
    pub case: u8,
    pub depth: u8,
    pub frames: [[u8; 2]; MAX_FRAMES],
}

impl Run {
    pub(crate) fn start(task: &Task) -> Self {
        Run {
            facts: task.cases[0].start,
            steps: 0,
            case: 0,
            depth: 1,
            frames: [UNUSED; MAX_FRAMES],
        }
    }

    pub(crate) fn is_finished(&self) -> bool {
        self.depth == 0
    }

    /// The frame whose line runs next; the run is not finished.
    pub(crate) fn top(&self) -> Frame {
        self.frames[self.top_index()]
    }

    pub(crate) fn is_possible(&self, task: &Task) -> bool {
        let case = usize::from(self.case);
        if case > task.case_count
            || self.facts & !task.known_facts() != 0
            || self.steps > task.step_bound
            || self.depth > task.stack_bound
            || self.is_finished() != (case == task.case_count)
        {
            return false;
        }
        let (used, unused) = self.frames.split_at(usize::from(self.depth));
        used.iter()
            .all(|&[procedure, line]| procedure < task.procedures && line <= task.last_line)
            && unused.iter().all(|&frame| frame == UNUSED)
    }

    /// Runs the instruction on the top frame's line; the run is not finished.
    pub(crate) fn step(&mut self, program: &Program, task: &Task) -> Result<(), Question> {
        ask(14, self.steps < task.step_bound)?;
        self.execute(program.line(self.top()), task)
    }

    /// Runs the top frame's instruction. A refusal changes nothing.
    pub(crate) fn execute(
        &mut self,
        instruction: Instruction,
        task: &Task,
    ) -> Result<(), Question> {
        let [procedure, line] = self.top();
        match instruction {
            Instruction::Empty => return Err(28),
            Instruction::Act { action } => {
                self.facts = task.actions[usize::from(action)].apply(self.facts)?;
                self.set_top([procedure, line + 1]);
            }
            Instruction::Goto { target, fact } => {
                let is_false = self.facts >> fact & 1 == 0;
                let next = if is_false { target } else { line + 1 };
                self.set_top([procedure, next]);
            }
            Instruction::Call { procedure: called } => {
                ask(21, self.depth < task.stack_bound)?;
                self.set_top([procedure, line + 1]);
                self.depth += 1;
                self.set_top([called, 0]);
            }
            Instruction::End if self.depth > 1 => {
                self.set_top(UNUSED);
                self.depth -= 1;
            }
            Instruction::End => self.close_case(task)?,
        }
        self.steps += 1;
        Ok(())
    }

    fn close_case(&mut self, task: &Task) -> Result<(), Question> {
        let goal = task.cases[usize::from(self.case)].goal;
        ask(22, goal.hold_in(self.facts))?;
        self.case += 1;
        if usize::from(self.case) < task.case_count {
            self.facts = task.cases[usize::from(self.case)].start;
            self.set_top(FIRST);
        } else {
            self.set_top(UNUSED);
            self.depth = 0;
        }
        Ok(())
    }

    fn top_index(&self) -> usize {
        usize::from(self.depth) - 1
    }

    fn set_top(&mut self, frame: Frame) {
        self.frames[self.top_index()] = frame;
    }
}
