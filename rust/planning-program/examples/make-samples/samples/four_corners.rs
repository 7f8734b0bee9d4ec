//! Visiting the four corners of a grid from any cell: the planning program of Segovia, Jiménez and Jonsson (2016), figure 3.

use super::grid::{at, cells, coordinate, downward, moves, standing_on, upward, Cell};
use super::Sample;
use planning_program::model::{words::*, Action, Bounds, Case, Mistake, Procedure, TaskBuilder};

/// Columns and rows of the grid.
const SIZE: u8 = 5;

/// The largest coordinate, n in the paper.
const LAST: u8 = SIZE - 1;

const CORNERS: [Cell; 4] = [(0, 0), (LAST, 0), (0, LAST), (LAST, LAST)];

pub fn sample() -> Result<Sample, Mistake> {
    let bounds = Bounds {
        last_line: 4,
        stack: 2,
        steps: 4096,
    };
    let model = TaskBuilder::new(bounds)
        .facts(coordinate("x", SIZE))
        .facts(coordinate("y", SIZE))
        .facts(CORNERS.map(visited))
        .actions([
            walk("dec x", "x", downward(SIZE)),
            walk("inc x", "x", upward(SIZE)),
            walk("dec y", "y", downward(SIZE)),
            walk("inc y", "y", upward(SIZE)),
        ])
        .procedures(["main", "p1", "p2", "p3", "p4"])
        .cases(cells(SIZE).map(walk_from))
        .build()?;
    let program = model.program(procedures())?;
    Ok(Sample {
        name: "four-corners",
        model,
        program,
    })
}

fn procedures() -> [Procedure; 5] {
    [
        procedure(
            "main",
            [call("p1"), call("p2"), call("p3"), call("p4"), end()],
        ),
        procedure(
            "p1",
            [
                act("dec x"),
                goto_unless(0, "x=0"),
                act("dec y"),
                goto_unless(2, "y=0"),
                end(),
            ],
        ),
        procedure("p2", [act("inc x"), goto_unless(0, at("x", LAST)), end()]),
        procedure("p3", [act("inc y"), goto_unless(0, at("y", LAST)), end()]),
        procedure("p4", [act("dec x"), goto_unless(0, "x=0"), end()]),
    ]
}

fn visited((x, y): Cell) -> String {
    format!("visited {x},{y}")
}

/// The action that moves along an axis and, on arrival at a corner, marks that corner as visited.
fn walk(name: &str, axis: &str, steps: impl Iterator<Item = (u8, u8)>) -> Action {
    let mut walk = action(name);
    for (from, to) in steps {
        walk = walk.effects([moves(axis, from, to)]);
        for corner in CORNERS {
            let (value, other) = along(axis, corner);
            if value == to {
                let arrives = when([is(at(axis, from)), is(other)]);
                walk = walk.effects([arrives.raises([visited(corner)])]);
            }
        }
    }
    walk
}

/// The value of a cell's coordinate on an axis, and the fact of its other coordinate.
fn along(axis: &str, (x, y): Cell) -> (u8, String) {
    match axis {
        "x" => (x, at("y", y)),
        _ => (y, at("x", x)),
    }
}

/// Where the cell is itself a corner, that one is visited at the start.
fn walk_from((x, y): Cell) -> Case {
    let corner_here = CORNERS.into_iter().find(|corner| *corner == (x, y));
    case(format!("from {x},{y}"))
        .start(standing_on((x, y)))
        .start(corner_here.map(visited))
        .goal(CORNERS.map(visited).map(is))
}
