//! Names in backticks, line by line.

/// The spans between backticks of one line.
pub fn spans(line: &str) -> Vec<String> {
    line.split('`').skip(1).step_by(2).map(str::to_string).collect()
}

/// Each line that is no code and has spans: its number, and the spans. Blocks of code, fenced or
/// indented, are passed over.
pub fn lines_with_spans(text: &str) -> Vec<(usize, Vec<String>)> {
    let mut fenced = false;
    let mut found = Vec::new();
    for (number, line) in (1..).zip(text.lines()) {
        if line.starts_with("```") {
            fenced = !fenced;
        } else if !fenced && !line.starts_with("    ") && line.contains('`') {
            found.push((number, spans(line)));
        }
    }
    found
}
