//! The entries, and one call of an entry on an input.

use crate::inputs::Input;
use crate::late_case::LateCase;
use crate::position;
use crate::sides::Side;
use reference::{Answer, Run, StepsAnswer};
use std::hint::black_box;

/// An instruction's op.
#[derive(Clone, Copy, PartialEq, Eq)]
pub enum Op {
    Act = 1,
    Goto = 2,
    Call = 3,
    End = 4,
}

#[derive(Clone, Copy, PartialEq, Eq)]
pub enum Entry {
    CheckTask,
    CheckPlan,
    WritePlan,
    /// The single step, call after call from the start on.
    Step,
    /// One call of the single step, at the first position of the run where this op is next.
    OneStep(Op),
    /// One call for forty steps, from the start on.
    Steps40,
    /// One call that adds the task's last case, at the start of the run on the task without it.
    AddCase,
}

/// The calls after which a run by single steps stops: each of them reads the whole task.
const MOST_CALLS: u32 = 64;

/// The steps that one call is asked for.
pub const FORTY: u16 = 40;

impl Entry {
    pub const EACH: [Entry; 6] = [
        Entry::CheckTask,
        Entry::CheckPlan,
        Entry::WritePlan,
        Entry::Step,
        Entry::Steps40,
        Entry::AddCase,
    ];

    pub fn name(self) -> &'static str {
        match self {
            Entry::CheckTask => "check_task",
            Entry::CheckPlan => "check_plan",
            Entry::WritePlan => "write_plan",
            Entry::Step => "step",
            Entry::OneStep(Op::Act) => "step-act",
            Entry::OneStep(Op::Goto) => "step-goto",
            Entry::OneStep(Op::Call) => "step-call",
            Entry::OneStep(Op::End) => "step-end",
            Entry::Steps40 => "steps-40",
            Entry::AddCase => "add_case",
        }
    }

    /// How many calls of the entry `measured` makes.
    pub fn calls(self, input: &Input) -> u32 {
        match self {
            Entry::Step => input.steps.min(MOST_CALLS),
            _ => 1,
        }
    }
}

/// All that a call takes, made ready before it is measured.
pub struct Call<'a> {
    side: &'static Side,
    entry: Entry,
    input: &'a Input,
    buffer: Vec<u8>,
    late: LateCase,
    start: Run,
    calls: u32,
}

impl<'a> Call<'a> {
    pub fn new(side: &'static Side, entry: Entry, input: &'a Input) -> Call<'a> {
        let buffer = match entry {
            Entry::CheckPlan => vec![0; input.program.len()],
            Entry::WritePlan => vec![0; input.plan.len()],
            Entry::AddCase => input.task.clone(),
            _ => Vec::new(),
        };
        let start = match entry {
            Entry::OneStep(op) => position::first_with(op, input),
            _ => position::start(input),
        };
        Call {
            side,
            entry,
            input,
            buffer,
            late: LateCase::of(input),
            start,
            calls: entry.calls(input),
        }
    }
}

/// The function in which instructions are counted: one call of an entry, or the calls of a run by single steps.
#[no_mangle]
#[inline(never)]
pub fn measured(call: &mut Call) -> Answer {
    let Call { side, input, .. } = *black_box(&*call);
    let buffer = &mut call.buffer;
    let answer = match call.entry {
        Entry::CheckTask => (side.check_task)(&input.task),
        Entry::CheckPlan => (side.check_plan)(&input.task, &input.plan, buffer),
        Entry::WritePlan => (side.write_plan)(&input.task, &input.program, buffer),
        Entry::Step | Entry::OneStep(_) => {
            let mut run = call.start;
            for _ in 1..call.calls {
                black_box((side.step)(&input.task, &input.program, &mut run));
            }
            (side.step)(&input.task, &input.program, black_box(&mut run))
        }
        Entry::Steps40 => {
            let mut run = call.start;
            let count = FORTY.into();
            let StepsAnswer { number, made, .. } =
                (side.steps)(&input.task, &input.program, count, black_box(&mut run));
            Answer {
                number,
                value: made.into(),
            }
        }
        Entry::AddCase => call.late.add(side, buffer, &call.start),
    };
    black_box(answer)
}
