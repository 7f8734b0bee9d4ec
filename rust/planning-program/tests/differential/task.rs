//! A task in parts, and its file. The parts may be out of their ranges.

/// Facts that must be true and facts that must be false; of an effect, those raised and those lowered.
#[derive(Clone, Copy, Default)]
pub struct Pair(pub u64, pub u64);

#[derive(Clone, Copy)]
pub struct Effect {
    pub condition: Pair,
    pub change: Pair,
}

#[derive(Clone)]
pub struct Action {
    pub precondition: Pair,
    pub effects: Vec<Effect>,
}

pub type Instruction = [u8; 3];

pub const EMPTY: Instruction = [0, 0, 0];
pub const END: Instruction = [4, 0, 0];

/// Procedure, line and instruction.
#[derive(Clone, Copy)]
pub struct Preset(pub u8, pub u8, pub Instruction);

#[derive(Clone, Copy)]
pub struct Case {
    pub start: u64,
    pub goal: Pair,
}

#[derive(Clone, Copy)]
pub struct Bounds {
    pub facts: u8,
    pub procedures: u8,
    pub last_line: u8,
    pub frames: u8,
    pub steps: u16,
}

/// The greatest bounds that a task may have.
pub const MOST: Bounds = Bounds {
    facts: 64,
    procedures: 8,
    last_line: 31,
    frames: 16,
    steps: 4096,
};

/// The most that a task may have of each.
pub const ACTIONS: u8 = 64;
pub const EFFECTS: u8 = 8;
pub const CASES: u8 = 32;

#[derive(Clone)]
pub struct Task {
    pub bounds: Bounds,
    pub actions: Vec<Action>,
    pub presets: Vec<Preset>,
    pub cases: Vec<Case>,
}

impl Bounds {
    pub fn all_facts(&self) -> u64 {
        u64::MAX >> (64 - self.facts)
    }

    /// Where a line's instruction begins in a program.
    pub fn offset(&self, procedure: u8, line: u8) -> usize {
        3 * (usize::from(procedure) * (usize::from(self.last_line) + 1) + usize::from(line))
    }

    /// The procedure and the line of every line of a program, in its order.
    pub fn lines(self) -> impl Iterator<Item = (u8, u8)> {
        (0..self.procedures).flat_map(move |j| (0..=self.last_line).map(move |i| (j, i)))
    }

    /// The instruction on a line of a program.
    pub fn instruction(&self, program: &[u8], procedure: u8, line: u8) -> Instruction {
        let at = self.offset(procedure, line);
        [program[at], program[at + 1], program[at + 2]]
    }

    pub fn put(&self, program: &mut [u8], procedure: u8, line: u8, instruction: Instruction) {
        let at = self.offset(procedure, line);
        program[at..at + 3].copy_from_slice(&instruction);
    }

    fn body(&self) -> Vec<u8> {
        let steps = self.steps.to_le_bytes();
        let bytes = [self.facts, self.procedures, self.last_line, self.frames];
        [&bytes[..], &steps[..]].concat()
    }
}

impl Task {
    pub fn file(&self) -> Vec<u8> {
        let mut file = record(1, &self.bounds.body());
        for action in &self.actions {
            file.extend(record(2, &action.body()));
        }
        for &Preset(procedure, line, instruction) in &self.presets {
            file.extend(record(3, &step_body(procedure, line, instruction)));
        }
        for case in &self.cases {
            file.extend(record(4, &sets(&[case.start, case.goal.0, case.goal.1])));
        }
        file.extend(record(5, &[]));
        file
    }

    /// Every pair of the task: preconditions, conditions, effects and goals.
    pub fn pairs(&mut self) -> Vec<&mut Pair> {
        let mut pairs = Vec::new();
        for action in &mut self.actions {
            pairs.push(&mut action.precondition);
            for effect in &mut action.effects {
                pairs.extend([&mut effect.condition, &mut effect.change]);
            }
        }
        pairs.extend(self.cases.iter_mut().map(|case| &mut case.goal));
        pairs
    }
}

impl Pair {
    fn holds_in(self, facts: u64) -> bool {
        let Pair(yes, no) = self;
        facts & yes == yes && facts & no == 0
    }
}

impl Action {
    /// The facts that one effect raises and another lowers, of those that fire where these facts are true.
    pub fn raised_and_lowered(&self, facts: u64) -> u64 {
        let (mut raised, mut lowered) = (0, 0);
        for Effect { condition, change } in &self.effects {
            if condition.holds_in(facts) {
                raised |= change.0;
                lowered |= change.1;
            }
        }
        raised & lowered
    }

    pub fn body(&self) -> Vec<u8> {
        let Pair(yes, no) = self.precondition;
        let mut body = sets(&[yes, no]);
        for Effect { condition, change } in &self.effects {
            body.extend(sets(&[condition.0, condition.1, change.0, change.1]));
        }
        body
    }
}

/// The body of a preset, and of a plan's step.
pub fn step_body(procedure: u8, line: u8, instruction: Instruction) -> Vec<u8> {
    let [op, p, q] = instruction;
    vec![procedure, line, op, p, q]
}

fn sets(sets: &[u64]) -> Vec<u8> {
    sets.iter().flat_map(|set| set.to_le_bytes()).collect()
}

pub fn record(kind: u16, body: &[u8]) -> Vec<u8> {
    let len = (body.len() as u16).to_le_bytes();
    [&len[..], &kind.to_le_bytes()[..], body].concat()
}
