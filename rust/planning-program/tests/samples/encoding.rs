//! A task's actions and goals compared with its worlds, in every state that the actions lead to.

use crate::world::World;
use crate::{named, stored, Sample};
use planning_program::model::{words::*, Names};
use planning_program::{raw, Progress, Refusal, Run, Task};
use std::collections::HashSet;

/// From the start of each case, and on by every action from every state that is reached: the action can be done in the task where it can be done
/// in the world, and changes the facts as it changes the world; and the case may end where the world is at its goal, and nowhere else.
pub fn assert_true_to(name: &str, worlds: Vec<impl World>) {
    let sample = named(name);
    let task = stored(name, "task.bin");
    let task = Task::check(&task).expect(name);
    for (case, world) in (0..).zip(worlds) {
        let mut seen = HashSet::from([facts(&sample, &world)]);
        let mut open = vec![world];
        while let Some(world) = open.pop() {
            assert_goal(&sample, &task, case, &world);
            for action in sample.model.names().actions.iter() {
                let next = acted(&sample, &task, case, &world, action);
                open.extend(next.filter(|next| seen.insert(facts(&sample, next))));
            }
        }
    }
}

/// The set of the facts that hold in a world.
fn facts(sample: &Sample, world: &impl World) -> u64 {
    let facts = sample.model.names().facts.iter().enumerate();
    let holding = facts.filter(|(_, name)| world.holds(name));
    holding.fold(0, |set, (fact, _)| set | 1 << fact)
}

/// A run of a case at a line of the main procedure, with the facts of a world.
fn run_at(sample: &Sample, case: u8, world: &impl World, line: u8) -> Run {
    let mut frames = [[0; 2]; 16];
    frames[0] = [0, line];
    Run::from(raw::Run {
        facts: facts(sample, world),
        steps: 0,
        case,
        depth: 1,
        frames,
    })
}

/// What an answer says: yes, or the question that says no.
fn question(answer: Result<Progress, Refusal>) -> Result<Progress, u8> {
    answer.map_err(|refusal| refusal.question)
}

/// The world after an action, if it can be done; the task must say so too.
fn acted<W: World>(sample: &Sample, task: &Task, case: u8, world: &W, action: &str) -> Option<W> {
    let program = sample
        .model
        .program([procedure("main", [act(action), end()])]);
    let mut run = run_at(sample, case, world, 0);
    let answer = run.step(task, &program.expect(action).bytes());
    let mut next = world.clone();
    let done = next.act(action);
    let expected = if done { Ok(Progress::Stepped) } else { Err(19) };
    let names: &Names = sample.model.names();
    let at = || format!("{action} where {:?}", names.facts_in(facts(sample, world)));
    assert_eq!(question(answer), expected, "{}", at());
    let after = names.facts_in(facts(sample, &next));
    assert_eq!(names.facts_in(run.facts()), after, "{}", at());
    done.then_some(next)
}

/// The case may end in this world exactly if it is at its goal.
fn assert_goal(sample: &Sample, task: &Task, case: u8, world: &impl World) {
    let program = sample.model.program([procedure("main", [empty(), end()])]);
    let answer = run_at(sample, case, world, 1).step(task, &program.expect("an end").bytes());
    let expected = if world.at_goal() {
        Ok(Progress::Stepped)
    } else {
        Err(22)
    };
    let holding = sample.model.names().facts_in(facts(sample, world));
    assert_eq!(question(answer), expected, "end where {holding:?}");
}
