//! Makes the folders of `samples/`: `cargo run -p planning-program --example make-samples`.
//!
//! Each sample is described in names by a file of `samples` here. Its plan is what the proved writer gives for its program; the proved checker
//! then has to accept it and to give the same program back.

mod samples;

use planning_program::Task;
use samples::Sample;
use std::error::Error;
use std::fs;
use std::path::Path;

fn main() -> Result<(), Box<dyn Error>> {
    let root = Path::new(env!("CARGO_MANIFEST_DIR")).join("../../samples");
    for sample in samples::all()? {
        let steps = make(&sample, &root.join(sample.name))?;
        println!("{}: {steps} steps", sample.name);
    }
    Ok(())
}

/// Writes the task, the plan and the listing into a folder, and gives the number of the plan's steps.
fn make(sample: &Sample, folder: &Path) -> Result<usize, Box<dyn Error>> {
    let Sample { model, program, .. } = sample;
    let task = Task::check(model.task_bytes())?;
    let plan = task.write_plan(&program.bytes())?;
    let checked = task.check_plan(&plan)?;
    if checked.program != program.bytes() {
        return Err(format!("{}: no case visits some line", sample.name).into());
    }
    fs::create_dir_all(folder)?;
    fs::write(folder.join("task.bin"), model.task_bytes())?;
    fs::write(folder.join("plan.bin"), &plan)?;
    fs::write(folder.join("listing.txt"), model.listing(program))?;
    Ok(checked.steps)
}
