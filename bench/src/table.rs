//! Markdown tables, printed row by row and padded so that they also read as text.

pub struct Table {
    widths: Vec<usize>,
}

impl Table {
    /// Prints the head: the first column to the left, the others to the right, each with its width.
    pub fn new(columns: &[(&str, usize)]) -> Table {
        let table = Table { widths: columns.iter().map(|&(_, width)| width).collect() };
        let names: Vec<String> = columns.iter().map(|(name, _)| name.to_string()).collect();
        table.row(&names);
        println!("|---{}|", "|---:".repeat(columns.len() - 1));
        table
    }

    pub fn row(&self, cells: &[String]) {
        for (n, (cell, &width)) in cells.iter().zip(&self.widths).enumerate() {
            if n == 0 {
                print!("| {cell:<width$} ");
            } else {
                print!("| {cell:>width$} ");
            }
        }
        println!("|");
    }
}
