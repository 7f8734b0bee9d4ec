//! Visiting a goal cell of a grid, with two procedures that the task presets: the domain Grid of Segovia, Jiménez and Jonsson (2016).

use super::grid::{at, cells, coordinate, downward, standing_on, upward, Cell};
use super::Sample;
use planning_program::model::{words::*, Action, Bounds, Case, Mistake, Procedure, TaskBuilder};

/// Columns and rows of the grid.
const SIZE: u8 = 5;

pub fn sample() -> Result<Sample, Mistake> {
    let bounds = Bounds {
        last_line: 6,
        stack: 2,
        steps: 4096,
    };
    let coordinates = ["x", "y", "xG", "yG"].map(|axis| coordinate(axis, SIZE));
    let model = TaskBuilder::new(bounds)
        .facts(coordinates.concat())
        .facts(["x=xG", "y=yG", "visited goal"])
        .actions([
            walk("dec x", "x", downward(SIZE)),
            walk("inc x", "x", upward(SIZE)),
            walk("dec y", "y", downward(SIZE)),
            walk("inc y", "y", upward(SIZE)),
            visit(),
        ])
        .procedures(["main", "reach column", "reach row"])
        .presets([reach("reach column", "x"), reach("reach row", "y")])
        .cases(cells(SIZE).map(walk_to_mirror_image))
        .build()?;
    let main = [call("reach column"), call("reach row"), act("visit"), end()];
    let program = model.program([procedure("main", main)])?;
    Ok(Sample {
        name: "preset-procedures",
        model,
        program,
    })
}

/// The procedure that walks along an axis, first to 0 and then up to the goal's coordinate.
fn reach(name: &str, axis: &str) -> Procedure {
    procedure(
        name,
        [
            act(format!("dec {axis}")),
            goto_unless(0, at(axis, 0)),
            goto_unless(4, reached(axis)),
            end(),
            act(format!("inc {axis}")),
            goto_unless(4, reached(axis)),
            end(),
        ],
    )
}

/// That the walker has the goal's coordinate, as `x=xG`. Every move keeps it so.
fn reached(axis: &str) -> String {
    format!("{axis}={axis}G")
}

/// The action that moves along an axis. A move has two effects, of which one fires: it leads to the goal's coordinate, or to another one.
fn walk(name: &str, axis: &str, steps: impl Iterator<Item = (u8, u8)>) -> Action {
    let effects = steps.flat_map(|(from, to)| {
        let goal = at(&format!("{axis}G"), to);
        let to_goal = when([is(at(axis, from)), is(&goal)])
            .raises([at(axis, to), reached(axis)])
            .lowers([at(axis, from)]);
        let elsewhere = when([is(at(axis, from)), not(&goal)])
            .raises([at(axis, to)])
            .lowers([at(axis, from), reached(axis)]);
        [to_goal, elsewhere]
    });
    action(name).effects(effects)
}

fn visit() -> Action {
    action("visit").effects([when([is("x=xG"), is("y=yG")]).raises(["visited goal"])])
}

/// The goal of each case is the start with its coordinates swapped. So the cases have every pair of a start column and a goal column, and every
/// pair of rows.
fn walk_to_mirror_image((x, y): Cell) -> Case {
    let (goal_x, goal_y) = (y, x);
    let on_diagonal = x == y;
    case(format!("from {x},{y} to {goal_x},{goal_y}"))
        .start(standing_on((x, y)))
        .start([at("xG", goal_x), at("yG", goal_y)])
        .start(["x=xG", "y=yG"].into_iter().filter(|_| on_diagonal))
        .goal([is("visited goal")])
}
