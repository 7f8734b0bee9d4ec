//! Walking to cell (0, 0) of a grid from any cell: the planning program of Segovia, Jiménez and Jonsson (2016), figure 2.

use super::grid::{cells, coordinate, downward, moves, standing_on};
use super::Sample;
use planning_program::model::{words::*, Action, Bounds, Mistake, TaskBuilder};

/// Columns and rows of the grid.
const SIZE: u8 = 5;

pub fn sample() -> Result<Sample, Mistake> {
    let bounds = Bounds {
        last_line: 4,
        stack: 1,
        steps: 4096,
    };
    let walks = cells(SIZE).map(|(x, y)| {
        case(format!("from {x},{y}"))
            .start(standing_on((x, y)))
            .goal(standing_on((0, 0)).map(is))
    });
    let model = TaskBuilder::new(bounds)
        .facts(coordinate("x", SIZE))
        .facts(coordinate("y", SIZE))
        .actions([decrement("x"), decrement("y")])
        .procedures(["main"])
        .cases(walks)
        .build()?;
    let program = model.program([procedure(
        "main",
        [
            act("dec x"),
            goto_unless(0, "x=0"),
            act("dec y"),
            goto_unless(2, "y=0"),
            end(),
        ],
    )])?;
    Ok(Sample {
        name: "grid-navigation",
        model,
        program,
    })
}

fn decrement(axis: &str) -> Action {
    let effects = downward(SIZE).map(|(from, to)| moves(axis, from, to));
    action(format!("dec {axis}")).effects(effects)
}
