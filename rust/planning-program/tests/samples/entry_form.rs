//! The race's entry form of the double click.

use crate::world::World;

/// A form, which is open until someone enters.
#[derive(Clone)]
pub struct Form {
    open: bool,
    bibs: u32,
}

/// As the first click finds it, and as the second does.
pub fn forms() -> Vec<Form> {
    let form = |open, bibs| Form { open, bibs };
    vec![form(true, 0), form(false, 1)]
}

impl World for Form {
    fn act(&mut self, action: &str) -> bool {
        assert_eq!(action, "enter");
        let entered = self.open;
        if entered {
            self.open = false;
            self.bibs += 1;
        }
        entered
    }

    fn holds(&self, fact: &str) -> bool {
        match fact {
            "open" => self.open,
            "bib" => self.bibs > 0,
            _ => panic!("no such fact: {fact}"),
        }
    }

    fn at_goal(&self) -> bool {
        !self.open && self.bibs == 1
    }
}
