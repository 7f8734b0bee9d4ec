//! Tables in Markdown, with aligned columns.

pub struct Table {
    rows: Vec<Vec<String>>,
    /// How many columns, from the left, hold words; the others hold numbers.
    words: usize,
}

impl Table {
    pub fn new(words: usize, head: &[&str]) -> Table {
        let head = head.iter().map(|cell| cell.to_string()).collect();
        Table {
            rows: vec![head],
            words,
        }
    }

    pub fn row(&mut self, cells: Vec<String>) {
        self.rows.push(cells);
    }

    /// Prints nothing when there is only a head.
    pub fn print(&self, title: &str) {
        let [head, rows @ ..] = &self.rows[..] else {
            return;
        };
        if rows.is_empty() {
            return;
        }
        println!("{title}\n");
        let widths = self.widths();
        self.print_row(head, &widths);
        self.print_row(&self.rule(&widths), &widths);
        for row in rows {
            self.print_row(row, &widths);
        }
        println!();
    }

    fn widths(&self) -> Vec<usize> {
        let width = |column: usize| self.rows.iter().map(|row| row[column].len()).max();
        let columns = 0..self.rows[0].len();
        columns.filter_map(width).collect()
    }

    /// The row below the head: a colon stands where a column's text does.
    fn rule(&self, widths: &[usize]) -> Vec<String> {
        let cell = |(column, width): (usize, &usize)| {
            let dashes = "-".repeat(width - 1);
            if column < self.words {
                format!(":{dashes}")
            } else {
                format!("{dashes}:")
            }
        };
        widths.iter().enumerate().map(cell).collect()
    }

    fn print_row(&self, row: &[String], widths: &[usize]) {
        for (column, (cell, &width)) in row.iter().zip(widths).enumerate() {
            if column < self.words {
                print!("| {cell:<width$} ");
            } else {
                print!("| {cell:>width$} ");
            }
        }
        println!("|");
    }
}
