//! How instructions grow with the steps of a run: the rows of one program on longer and longer runs.

use crate::entry::Entry;
use crate::numbers::{fraction, whole};
use crate::report::Row;
use crate::sides::SIDES;
use crate::table::Table;

/// Steps of a run, and instructions of the call.
type Point = [f64; 2];

pub fn table(rows: &[Row]) -> Table {
    let head = [
        "entry",
        "side",
        "steps",
        "instructions",
        "per step",
        "per step since the row above",
    ];
    let mut table = Table::new(2, &head);
    for entry in [Entry::CheckPlan, Entry::WritePlan] {
        for (index, side) in SIDES.iter().enumerate() {
            let mut above = None;
            for point in points(rows, entry, index) {
                table.row(cells([entry.name(), side.name], point, above));
                above = Some(point);
            }
        }
    }
    table
}

fn points(rows: &[Row], entry: Entry, side: usize) -> Vec<Point> {
    let point = |row: &Row| Some([f64::from(row.steps), row.instructions?[side]]);
    rows.iter()
        .filter(|row| row.input.starts_with("growth") && row.entry == entry)
        .filter_map(point)
        .collect()
}

fn cells(words: [&str; 2], point: Point, above: Option<Point>) -> Vec<String> {
    let [steps, count] = point;
    let since = |[before, less]: Point| fraction((count - less) / (steps - before));
    let mut cells = words.map(String::from).to_vec();
    cells.extend([whole(steps), whole(count), fraction(count / steps)]);
    cells.push(above.map(since).unwrap_or_default());
    cells
}
