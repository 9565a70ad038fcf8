//! Rows of text, cell under cell.

/// A line for each row, each column but the last as wide as its widest cell.
pub fn aligned<const CELLS: usize>(rows: &[[String; CELLS]]) -> String {
    let width = |column: usize| rows.iter().map(|row| row[column].chars().count()).max().unwrap_or(0);
    let widths: [usize; CELLS] = std::array::from_fn(|column| if column + 1 == CELLS { 0 } else { width(column) });
    rows.iter().map(|row| line(row, &widths)).collect()
}

fn line(cells: &[String], widths: &[usize]) -> String {
    let padded: Vec<String> = cells.iter().zip(widths).map(|(cell, width)| format!("{cell:<width$}")).collect();
    padded.join("  ") + "\n"
}
