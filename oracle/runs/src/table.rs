//! Tables of words: the first column to the left, all others to the right.

/// The rows with their columns under each other.
pub fn aligned(rows: &[Vec<String>]) -> String {
    let columns = rows.iter().map(Vec::len).max().unwrap_or(0);
    let width = |column: usize| rows.iter().filter_map(|row| row.get(column)).map(|word| word.chars().count()).max();
    let widths: Vec<usize> = (0..columns).map(|column| width(column).unwrap_or(0)).collect();
    rows.iter()
        .map(|row| {
            let cells = row.iter().zip(&widths).enumerate().map(|(column, (word, &width))| match column {
                0 => format!("{word:<width$}"),
                _ => format!("{word:>width$}"),
            });
            cells.collect::<Vec<_>>().join("  ") + "\n"
        })
        .collect()
}
