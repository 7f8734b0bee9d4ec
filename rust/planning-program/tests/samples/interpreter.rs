//! Runs a listing by its words.

use crate::world::World;

/// The procedures of a listing: the name and the lines of each.
pub struct Listing {
    procedures: Vec<(String, Vec<String>)>,
}

impl Listing {
    /// Reads a listing: headings `procedure NUMBER NAME`, and under each its lines, `NUMBER INSTRUCTION`.
    pub fn read(text: &str) -> Listing {
        let mut procedures: Vec<(String, Vec<String>)> = Vec::new();
        for row in text.lines() {
            if let Some(heading) = row.strip_prefix("procedure ") {
                let name = after_number(heading, procedures.len());
                procedures.push((name, Vec::new()));
            } else {
                let (_, lines) = procedures.last_mut().expect("a heading before the lines");
                lines.push(after_number(row, lines.len()));
            }
        }
        Listing { procedures }
    }

    /// Runs the instruction at the top of the stack, whose frames are procedure and line.
    pub fn step(&self, world: &mut impl World, stack: &mut Vec<[u8; 2]>) {
        let [procedure, line] = stack.last_mut().expect("a frame");
        let (_, lines) = &self.procedures[usize::from(*procedure)];
        let instruction = lines[usize::from(*line)].as_str();
        *line += 1;
        if let Some(action) = instruction.strip_prefix("act ") {
            assert!(world.act(action), "{action} cannot be done");
        } else if let Some(jump) = instruction.strip_prefix("goto ") {
            let (target, fact) = jump.split_once(" unless ").expect("a condition");
            if !world.holds(fact) {
                *line = target.parse().expect("a line");
            }
        } else if let Some(name) = instruction.strip_prefix("call ") {
            stack.push([self.number(name), 0]);
        } else {
            assert_eq!(instruction, "end");
            stack.pop();
        }
    }

    fn number(&self, name: &str) -> u8 {
        let mut names = self.procedures.iter().map(|(name, _)| name);
        names.position(|known| known == name).expect(name) as u8
    }
}

/// What follows the number on a row.
fn after_number(row: &str, number: usize) -> String {
    let (shown, rest) = row.split_once(' ').expect("a number and more");
    assert_eq!(shown, number.to_string());
    rest.to_string()
}
