//! The samples: a task in names and a program for it each.

mod double_click;
mod four_corners;
mod grid;
mod grid_navigation;
mod moving_up;
mod preset_procedures;
mod tree_traversal;

use planning_program::model::{Mistake, Model, Program};

/// A task and a program that ends each of its cases in the goal.
pub struct Sample {
    /// The folder's name.
    pub name: &'static str,
    pub model: Model,
    pub program: Program,
}

/// All samples, the simplest first.
pub fn all() -> Result<Vec<Sample>, Mistake> {
    Ok(vec![
        double_click::sample()?,
        moving_up::sample()?,
        grid_navigation::sample()?,
        four_corners::sample()?,
        tree_traversal::sample()?,
        preset_procedures::sample()?,
    ])
}
