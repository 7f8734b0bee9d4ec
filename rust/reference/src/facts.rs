//! Fact sets and pairs of them: facts that are, or become, true and false.
//! Bit f of a set stands for fact f. Question 6.

pub(crate) type Facts = u64;

pub(crate) const PAIR_BYTES: usize = 16;

#[derive(Clone, Copy, Default)]
pub(crate) struct Literals {
    pub positive: Facts,
    pub negative: Facts,
}

impl Literals {
    pub fn read(bytes: &[u8; PAIR_BYTES]) -> Self {
        let sets = bytes.as_chunks().0;
        Literals {
            positive: Facts::from_le_bytes(sets[0]),
            negative: Facts::from_le_bytes(sets[1]),
        }
    }

    pub fn hold_in(self, facts: Facts) -> bool {
        facts & self.positive == self.positive && facts & self.negative == 0
    }

    /// Only facts among `known`, and none named twice.
    pub fn well_formed(self, known: Facts) -> bool {
        self.positive & !known == 0 && self.negative & !(known & !self.positive) == 0
    }
}

/// The facts below a number, which may be any: from 64 on these are all facts.
pub(crate) fn facts_below(number: u8) -> Facts {
    !Facts::MAX.unbounded_shl(number.into())
}

/// How many pairs of an action's body stand before the first that fails question 6.
/// It is all of them exactly if none fails. Of any bytes the whole pairs are looked at.
pub fn pairs_before_fault(facts: u8, body: &[u8]) -> usize {
    let known = facts_below(facts);
    let pairs = body.as_chunks().0;
    pairs
        .iter()
        .position(|pair| !Literals::read(pair).well_formed(known))
        .unwrap_or(pairs.len())
}
