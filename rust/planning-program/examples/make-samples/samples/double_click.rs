//! A runner clicks twice on a race's entry form. The first click finds it open and gives a bib number; the second must do nothing.

use super::Sample;
use planning_program::model::{words::*, Bounds, Mistake, TaskBuilder};

pub fn sample() -> Result<Sample, Mistake> {
    let bounds = Bounds {
        last_line: 2,
        stack: 1,
        steps: 5,
    };
    let goal = [is("bib"), not("open")];
    let model = TaskBuilder::new(bounds)
        .facts(["open", "bib"])
        .actions([action("enter")
            .needs([is("open")])
            .effects([always().raises(["bib"]).lowers(["open"])])])
        .procedures(["main"])
        .cases([
            case("first click").start(["open"]).goal(goal.clone()),
            case("second click").start(["bib"]).goal(goal),
        ])
        .build()?;
    let main = procedure("main", [goto_unless(2, "open"), act("enter"), end()]);
    let program = model.program([main])?;
    Ok(Sample {
        name: "double-click",
        model,
        program,
    })
}
