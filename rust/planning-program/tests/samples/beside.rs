//! A sample's listing run in its worlds, beside the library's run of its task.

use crate::interpreter::Listing;
use crate::world::World;
use crate::{named, stored, stored_listing, Sample};
use planning_program::{Progress, Run, Task};

/// Runs the stored task by the library and the stored listing in the worlds, one for each case, side by side. Before each step both are at the
/// same line with the same call stack, and the facts that are true are those that hold in the world. At the end each world is at its goal;
/// they are given back.
pub fn run_beside<W: World>(name: &str, mut worlds: Vec<W>) -> Vec<W> {
    let Sample { model, program, .. } = named(name);
    let (task, program) = (stored(name, "task.bin"), program.bytes());
    let task = Task::check(&task).expect(name);
    assert_eq!(usize::from(task.cases()), worlds.len());
    let listing = Listing::read(&stored_listing(name));
    let mut run = Run::start(&task);
    for (world, case) in worlds.iter_mut().zip(model.names().cases.iter()) {
        let mut stack = vec![[0, 0]];
        while !stack.is_empty() {
            let at = format!("{name}, case `{case}`, step {}", run.steps_made());
            let facts = model.names().facts.iter();
            let holding: Vec<&str> = facts.filter(|fact| world.holds(fact)).collect();
            assert_eq!(model.names().facts_in(run.facts()), holding, "{at}");
            assert_eq!(run.frames(), stack, "{at}");
            assert_eq!(run.step(&task, &program), Ok(Progress::Stepped), "{at}");
            listing.step(world, &mut stack);
        }
        assert!(world.at_goal(), "{name}, case `{case}`");
    }
    assert!(run.is_finished(), "{name}");
    worlds
}
