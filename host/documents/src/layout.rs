//! Lines that are too long, cells of tables that are paragraphs, and names that run over a line's end.

/// The longest line outside of tables and of code.
const LONGEST_LINE: usize = 200;

/// The most words in a cell of a table.
const LONGEST_CELL: usize = 60;

/// What is wrong with a document's lines.
pub fn faults(document: &str, text: &str) -> Vec<String> {
    let mut faults = Vec::new();
    for (number, line) in (1..).zip(text.lines()) {
        let fence = line.starts_with("```");
        if !fence && line.matches('`').count() % 2 == 1 {
            faults
                .push(format!("{document}:{number}: a name in backticks runs over the line's end"));
        }
        if line.starts_with('|') {
            for cell in line.split('|') {
                let words = cell.split_whitespace().count();
                if words > LONGEST_CELL {
                    faults.push(format!("{document}:{number}: a cell of {words} words"));
                }
            }
        } else if line.chars().count() > LONGEST_LINE {
            faults.push(format!("{document}:{number}: {} characters", line.chars().count()));
        }
    }
    faults
}
