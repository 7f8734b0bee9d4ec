//! A walker in a grid, by coordinates.

use crate::world::World;
use std::collections::HashSet;

/// Columns and rows of the samples' grids.
const SIZE: i32 = 5;

/// The largest coordinate.
const LAST: i32 = SIZE - 1;

type Cell = (i32, i32);

/// What a walk is for.
#[derive(Clone)]
enum Errand {
    /// To stand on the cell at the end.
    StandOn(Cell),
    /// To have been on the four corners.
    BeOnCorners,
    /// To have marked the cell as visited, by the action `visit`.
    Visit(Cell),
}

#[derive(Clone)]
pub struct Walk {
    at: Cell,
    errand: Errand,
    /// The cells that the walker has stood on.
    been_on: HashSet<Cell>,
    /// The cells on which the action `visit` was done.
    visited: HashSet<Cell>,
}

/// From every cell to (0, 0).
pub fn walks_to_origin() -> Vec<Walk> {
    walks(|_| Errand::StandOn((0, 0)))
}

/// From every cell round all corners.
pub fn walks_round_the_corners() -> Vec<Walk> {
    walks(|_| Errand::BeOnCorners)
}

/// From every cell to the one with its coordinates swapped.
pub fn walks_to_goal_cells() -> Vec<Walk> {
    walks(|(x, y)| Errand::Visit((y, x)))
}

fn walks(errand: impl Fn(Cell) -> Errand) -> Vec<Walk> {
    let cells = (0..SIZE).flat_map(|x| (0..SIZE).map(move |y| (x, y)));
    let walk = |at| Walk {
        at,
        errand: errand(at),
        been_on: HashSet::from([at]),
        visited: HashSet::new(),
    };
    cells.map(walk).collect()
}

impl Walk {
    /// Moves on, unless that would lead out of the grid.
    fn walk(&mut self, (dx, dy): Cell) {
        let (x, y) = (self.at.0 + dx, self.at.1 + dy);
        if (0..SIZE).contains(&x) && (0..SIZE).contains(&y) {
            self.at = (x, y);
            self.been_on.insert(self.at);
        }
    }

    /// The coordinate with this name.
    fn coordinate(&self, name: &str) -> i32 {
        match (name, &self.errand) {
            ("x", _) => self.at.0,
            ("y", _) => self.at.1,
            ("xG", Errand::Visit((x, _))) => *x,
            ("yG", Errand::Visit((_, y))) => *y,
            _ => panic!("no such coordinate: {name}"),
        }
    }

    /// Whether `visited goal` or `visited X,Y` is so.
    fn has_visited(&self, cell: &str) -> bool {
        if let ("goal", Errand::Visit(goal)) = (cell, &self.errand) {
            return self.visited.contains(goal);
        }
        let (x, y) = cell.split_once(',').expect("a cell");
        let cell = (x.parse().expect("x"), y.parse().expect("y"));
        self.been_on.contains(&cell)
    }
}

impl World for Walk {
    fn act(&mut self, action: &str) -> bool {
        match action {
            "dec x" => self.walk((-1, 0)),
            "inc x" => self.walk((1, 0)),
            "dec y" => self.walk((0, -1)),
            "inc y" => self.walk((0, 1)),
            "visit" => {
                self.visited.insert(self.at);
            }
            _ => panic!("no such action: {action}"),
        }
        true
    }

    fn holds(&self, fact: &str) -> bool {
        if let Some(cell) = fact.strip_prefix("visited ") {
            return self.has_visited(cell);
        }
        let (left, right) = fact.split_once('=').expect("an equation");
        let right = match right.parse() {
            Ok(value) => value,
            Err(_) => self.coordinate(right),
        };
        self.coordinate(left) == right
    }

    fn at_goal(&self) -> bool {
        match self.errand {
            Errand::StandOn(cell) => self.at == cell,
            Errand::BeOnCorners => [(0, 0), (0, LAST), (LAST, 0), (LAST, LAST)]
                .iter()
                .all(|corner| self.been_on.contains(corner)),
            Errand::Visit(cell) => self.visited.contains(&cell),
        }
    }
}
