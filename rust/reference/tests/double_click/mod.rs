//! The double-click task with the parts that the tests vary, its program, and the positions of its run.

use reference::{Answer, Run};

/// What buffers are full of, so that every byte kept or filled shows.
pub const MARK: u8 = 0xa5;

pub const PROGRAM: [u8; 9] = [2, 2, 0, 1, 0, 0, 4, 0, 0];

pub struct DoubleClick {
    pub facts: u8,
    pub last_line: u8,
    pub step_bound: u16,
    pub actions: usize,
    pub more_effects: &'static [[u64; 4]],
    pub first_start: u64,
}

pub const TASK: DoubleClick = DoubleClick {
    facts: 2,
    last_line: 2,
    step_bound: 5,
    actions: 1,
    more_effects: &[],
    first_start: 1,
};

impl DoubleClick {
    pub fn bytes(&self) -> Vec<u8> {
        let mut bounds = vec![self.facts, 1, self.last_line, 1];
        bounds.extend(self.step_bound.to_le_bytes());
        let more_effects = self.more_effects.iter().flatten().copied();
        let action: Vec<u64> = [1, 0, 0, 0, 2, 1].into_iter().chain(more_effects).collect();
        let mut file = record(1, &bounds);
        for _ in 0..self.actions {
            file.extend(record(2, &sets(&action)));
        }
        for start in [self.first_start, 2] {
            file.extend(record(4, &sets(&[start, 2, 1])));
        }
        file.extend(record(5, &[]));
        file
    }
}

pub fn record(kind: u8, body: &[u8]) -> Vec<u8> {
    let length = u8::try_from(body.len()).expect("a short record");
    [&[length, 0, kind, 0], body].concat()
}

pub fn sets(sets: &[u64]) -> Vec<u8> {
    sets.iter().flat_map(|set| set.to_le_bytes()).collect()
}

pub fn answer(number: u32, value: u32) -> Answer {
    Answer { number, value }
}

/// A record with one frame, at this line of procedure 0.
pub fn open(case: u8, facts: u64, line: u8, steps: u16) -> Run {
    let mut frames = [[0, 0]; 16];
    frames[0] = [0, line];
    Run {
        facts,
        steps,
        case,
        depth: 1,
        frames,
    }
}

/// A record without a frame.
pub fn finished(case: u8, facts: u64, steps: u16) -> Run {
    Run {
        depth: 0,
        ..open(case, facts, 0, steps)
    }
}

/// The records of the task's run: goto, act and end, then goto and end.
pub fn positions() -> [Run; 6] {
    [
        open(0, 1, 0, 0),
        open(0, 1, 1, 1),
        open(0, 2, 2, 2),
        open(1, 2, 0, 3),
        open(1, 2, 2, 4),
        finished(2, 2, 5),
    ]
}
