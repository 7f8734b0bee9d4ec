//! A square grid: the facts and effects that its samples share.
//!
//! A coordinate is one fact for each value that it can have, as `x=0` to `x=4`, of which exactly one is true.

use planning_program::model::{words::*, Effect};

/// That a coordinate has a value, as `x=3`.
pub fn at(axis: &str, value: u8) -> String {
    format!("{axis}={value}")
}

/// The facts of a coordinate in a grid with so many columns and rows.
pub fn coordinate(axis: &str, size: u8) -> Vec<String> {
    (0..size).map(|value| at(axis, value)).collect()
}

/// The values along an axis from which a step down leads, and where to. None leads out of the grid, so at 0 nothing changes.
pub fn downward(size: u8) -> impl Iterator<Item = (u8, u8)> {
    (1..size).map(|from| (from, from - 1))
}

/// The values along an axis from which a step up leads, and where to. None leads out of the grid, so at the border nothing changes.
pub fn upward(size: u8) -> impl Iterator<Item = (u8, u8)> {
    (1..size).map(|to| (to - 1, to))
}

/// The effect that moves a coordinate from a value to another.
pub fn moves(axis: &str, from: u8, to: u8) -> Effect {
    when([is(at(axis, from))])
        .raises([at(axis, to)])
        .lowers([at(axis, from)])
}

/// A cell: x and y.
pub type Cell = (u8, u8);

/// All cells.
pub fn cells(size: u8) -> impl Iterator<Item = Cell> {
    (0..size).flat_map(move |x| (0..size).map(move |y| (x, y)))
}

/// The facts of standing on a cell.
pub fn standing_on((x, y): Cell) -> [String; 2] {
    [at("x", x), at("y", y)]
}
