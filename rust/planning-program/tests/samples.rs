//! The stored samples: made by their builder, accepted by the checker, and true to what they are about.
//!
//! That a plan is accepted says that the facts end as the goal wants. Whether the facts mean what their names say is tested apart: each sample's
//! world is simulated here on coordinates, trees, an entry form or a queue. The listing is run in it by the words that stand there, beside the
//! library's run; and every action and goal of the task is compared with it.

#[path = "samples/beside.rs"]
mod beside;
#[path = "samples/encoding.rs"]
mod encoding;
#[path = "samples/entry_form.rs"]
mod entry_form;
#[path = "samples/grid.rs"]
mod grid;
#[path = "samples/interpreter.rs"]
mod interpreter;
#[path = "samples/queue.rs"]
mod queue;
#[path = "../examples/make-samples/samples/mod.rs"]
mod samples;
#[path = "samples/tree.rs"]
mod tree;
#[path = "samples/world.rs"]
mod world;

use beside::run_beside;
use encoding::assert_true_to;
use planning_program::model::{steps_of, NameList, Step, StepKind};
use planning_program::{Progress, Run, Task};
use samples::Sample;
use std::fs;
use std::path::{Path, PathBuf};
use tree::Traversal;

fn folder() -> PathBuf {
    Path::new(env!("CARGO_MANIFEST_DIR")).join("../../samples")
}

/// The bytes of a sample's file.
fn stored(sample: &str, file: &str) -> Vec<u8> {
    let path = folder().join(sample).join(file);
    fs::read(&path).unwrap_or_else(|error| panic!("{}: {error}", path.display()))
}

fn stored_listing(sample: &str) -> String {
    String::from_utf8(stored(sample, "listing.txt")).expect("a listing is text")
}

fn all() -> Vec<Sample> {
    samples::all().expect("no sample has a mistake")
}

fn named(name: &str) -> Sample {
    let mut samples = all().into_iter();
    samples.find(|sample| sample.name == name).expect(name)
}

/// The folder has no sample that the builder does not make, and none with another file.
#[test]
fn folders_are_those_of_the_builder() {
    let names_in = |path: &Path| {
        let entries = fs::read_dir(path).expect("a folder");
        let names = entries.map(|entry| entry.expect("an entry").file_name());
        let mut names: Vec<_> = names.map(|name| name.into_string().unwrap()).collect();
        names.sort();
        names
    };
    let mut expected: Vec<_> = all().iter().map(|sample| sample.name.to_string()).collect();
    expected.push("README.md".to_string());
    expected.sort();
    assert_eq!(names_in(&folder()), expected);
    for sample in all() {
        let files = names_in(&folder().join(sample.name));
        assert_eq!(files, ["listing.txt", "plan.bin", "task.bin"]);
    }
}

#[test]
fn stored_files_are_what_the_builder_makes() {
    for Sample {
        name,
        model,
        program,
    } in all()
    {
        let task = Task::check(model.task_bytes()).expect(name);
        let plan = task.write_plan(&program.bytes()).expect(name);
        assert!(stored(name, "task.bin") == model.task_bytes(), "{name}");
        assert!(stored(name, "plan.bin") == plan, "{name}");
        assert_eq!(stored_listing(name), model.listing(&program));
    }
}

#[test]
fn stored_plans_are_accepted_and_written_back() {
    for Sample { name, model, .. } in all() {
        let (task, plan) = (stored(name, "task.bin"), stored(name, "plan.bin"));
        let task = Task::check(&task).expect(name);
        let checked = task.check_plan(&plan).expect(name);
        let program = model.program_of(&checked.program).expect(name);
        assert_eq!(model.listing(&program), stored_listing(name));
        assert!(
            task.write_plan(&checked.program).as_ref() == Ok(&plan),
            "{name}"
        );
    }
}

/// The plain Rust implementation answers as the proved library does.
#[test]
fn reference_agrees() {
    for Sample { name, program, .. } in all() {
        let (task, plan) = (stored(name, "task.bin"), stored(name, "plan.bin"));
        let steps = steps_of(&plan).expect(name).len() as u32;
        let accepted = reference::Answer {
            number: 0,
            value: steps,
        };
        let mut read_off = vec![0; program.bytes().len()];
        assert_eq!(reference::check_plan(&task, &plan, &mut read_off), accepted);
        assert_eq!(read_off, program.bytes(), "{name}");
        let mut written = vec![0; plan.len()];
        assert_eq!(
            reference::write_plan(&task, &read_off, &mut written),
            accepted
        );
        assert!(written == plan, "{name}");
    }
}

#[test]
fn double_click_gives_one_bib() {
    run_beside("double-click", entry_form::forms());
    assert_true_to("double-click", entry_form::forms());
}

/// One effect lowers `at desk` and the other raises it: the desk stays taken.
#[test]
fn moving_up_leaves_nobody_out() {
    run_beside("moving-up", queue::queues());
    assert_true_to("moving-up", queue::queues());
}

#[test]
fn grid_navigation_walks_to_the_goal_cell() {
    run_beside("grid-navigation", grid::walks_to_origin());
    assert_true_to("grid-navigation", grid::walks_to_origin());
}

#[test]
fn four_corners_are_visited() {
    run_beside("four-corners", grid::walks_round_the_corners());
    assert_true_to("four-corners", grid::walks_round_the_corners());
}

#[test]
fn tree_traversal_is_depth_first() {
    let traversals = run_beside("tree-traversal", tree::traversals());
    assert!(traversals.iter().all(Traversal::was_depth_first));
    assert_true_to("tree-traversal", tree::traversals());
}

#[test]
fn preset_procedures_lead_to_the_goal_cell() {
    run_beside("preset-procedures", grid::walks_to_goal_cells());
    assert_true_to("preset-procedures", grid::walks_to_goal_cells());
}

/// The plan writes the four lines of the main procedure and no other: the rest was preset.
#[test]
fn only_the_main_procedure_is_written_beside_presets() {
    let steps = steps_of(&stored("preset-procedures", "plan.bin")).expect("a plan");
    let written = steps.iter().filter(|step| step.kind == StepKind::Write);
    let lines: Vec<_> = written
        .map(
            |Step {
                 procedure, line, ..
             }| (*procedure, *line),
        )
        .collect();
    assert_eq!(lines, [(0, 0), (0, 1), (0, 2), (0, 3)]);
    for procedure in [1, 2] {
        assert!(steps.iter().any(|step| step.procedure == procedure));
    }
}

/// A procedure calls itself, and three frames are on the stack at the deepest.
#[test]
fn tree_traversal_is_recursive_to_the_stack_bound() {
    let Sample { program, .. } = named("tree-traversal");
    let bytes = stored("tree-traversal", "task.bin");
    let task = Task::check(&bytes).expect("a task");
    let mut run = Run::start(&task);
    let mut deepest = 0;
    while run.step(&task, &program.bytes()) == Ok(Progress::Stepped) {
        deepest = deepest.max(run.frames().len());
        assert!(run.frames().iter().all(|[procedure, _]| *procedure == 0));
    }
    assert!(run.is_finished());
    assert_eq!((deepest, task.stack_bound()), (3, 3));
}

/// Calls for forty steps go to the finish as single steps do, and the last one makes what is left.
#[test]
fn forty_steps_in_a_call_go_to_the_finish() {
    for Sample { name, program, .. } in all() {
        let (task, plan) = (stored(name, "task.bin"), stored(name, "plan.bin"));
        let (task, program) = (Task::check(&task).expect(name), program.bytes());
        let (mut run, mut single) = (Run::start(&task), Run::start(&task));
        for forty in steps_of(&plan).expect(name).chunks(40) {
            let made = run.steps(&task, &program, 40);
            assert_eq!(made, Ok(forty.len() as u16), "{name}");
            for _ in forty {
                assert_eq!(single.step(&task, &program), Ok(Progress::Stepped));
            }
            assert_eq!(run, single, "{name}");
        }
        assert!(run.is_finished(), "{name}");
        assert_eq!(run.steps(&task, &program, 40), Ok(0), "{name}");
    }
}

/// The page about the samples has each one's sizes in its table, and the command and the listing at the end of its section.
#[test]
fn readme_is_true() {
    let readme = fs::read_to_string(folder().join("README.md")).expect("samples/README.md");
    for Sample { name, model, .. } in all() {
        let (task, plan) = (stored(name, "task.bin"), stored(name, "plan.bin"));
        let steps = steps_of(&plan).expect(name).len();
        let names = model.names();
        let counts = [&names.facts, &names.actions, &names.cases].map(NameList::count);
        let sizes = [&counts[..], &[steps, task.len(), plan.len()]].concat();
        let sizes: String = sizes.iter().map(|size| format!(" {size} |")).collect();
        let row = format!("\n| `{name}` |{sizes}\n");
        assert!(readme.contains(&row), "no row {row}");

        let (_, section) = readme.split_once(&format!("\n## {name}\n")).expect(name);
        let section = section.split("\n## ").next().expect(name).trim_end();
        let listing = stored_listing(name).replace('\n', "\n    ");
        let shown = format!("\n\n    ./check-plan samples/{name}\n\n    {listing}");
        assert!(section.ends_with(shown.trim_end()), "{name}: {section}");
    }
}
