//! The queue at a race's entry desk.

use crate::world::World;

/// The places in the order in which a runner passes them.
const PLACES: [&str; 3] = ["waiting", "at desk", "entered"];

/// A queue, in which everyone has to move up one place.
#[derive(Clone)]
pub struct Queue {
    /// The number of each runner's place.
    runners: Vec<usize>,
    /// Where each has to be at the end.
    goal: Vec<usize>,
}

/// With both places before the last taken, with one, and with none.
pub fn queues() -> Vec<Queue> {
    let queue = |runners: &[usize]| Queue {
        runners: runners.to_vec(),
        goal: runners.iter().map(|place| place + 1).collect(),
    };
    vec![queue(&[0, 1]), queue(&[0]), queue(&[1]), queue(&[])]
}

impl World for Queue {
    fn act(&mut self, action: &str) -> bool {
        assert_eq!(action, "next");
        for place in &mut self.runners {
            *place = (*place + 1).min(PLACES.len() - 1);
        }
        true
    }

    fn holds(&self, fact: &str) -> bool {
        let place = PLACES.iter().position(|&place| place == fact);
        self.runners.contains(&place.expect(fact))
    }

    fn at_goal(&self) -> bool {
        self.runners == self.goal
    }
}
