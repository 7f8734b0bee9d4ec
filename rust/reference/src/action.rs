//! Actions: a precondition and conditional effects, borrowed from the task file.
//! Question 19.

use crate::answer::{ask, Question};
use crate::facts::{Facts, Literals, PAIR_BYTES};

const EFFECT_BYTES: usize = 2 * PAIR_BYTES;
const MAX_EFFECTS: usize = 8;

struct Effect {
    condition: Literals,
    change: Literals,
}

impl Effect {
    fn read(bytes: &[u8; EFFECT_BYTES]) -> Self {
        let both = bytes.as_chunks().0;
        Effect {
            condition: Literals::read(&both[0]),
            change: Literals::read(&both[1]),
        }
    }
}

#[derive(Clone, Copy, Default)]
pub(crate) struct Action<'a> {
    precondition: Literals,
    effects: &'a [[u8; EFFECT_BYTES]],
}

impl<'a> Action<'a> {
    /// `None` if the body is not a pair and 0 to 8 effects.
    pub fn read(body: &'a [u8]) -> Option<Self> {
        let (precondition, effects) = body.split_first_chunk()?;
        let (effects, surplus) = effects.as_chunks();
        (effects.len() <= MAX_EFFECTS && surplus.is_empty()).then_some(Action {
            precondition: Literals::read(precondition),
            effects,
        })
    }

    /// The facts after the action. Every condition is judged in the facts before it, and a fact
    /// that is both raised and lowered is true.
    pub fn apply(&self, facts: Facts) -> Result<Facts, Question> {
        ask(19, self.precondition.hold_in(facts))?;
        let mut raised = 0;
        let mut lowered = 0;
        for effect in self.effects() {
            if effect.condition.hold_in(facts) {
                raised |= effect.change.positive;
                lowered |= effect.change.negative;
            }
        }
        Ok((facts & !lowered) | raised)
    }

    fn effects(&self) -> impl Iterator<Item = Effect> + 'a {
        self.effects.iter().map(Effect::read)
    }
}
