//! The table: a row for each work and size, measured in several rounds and printed at the end.

use crate::timing;

/// What is asked of a row, beside being no slower than plain Rust.
#[derive(Clone, Copy, PartialEq)]
pub enum Goal {
    /// No slower than plain Rust.
    Rust,
    /// No slower than plain Rust, and within so many times the bare copy.
    Copies(f64),
}

/// The best times so far of one work, in nanoseconds.
struct Row {
    work: String,
    bytes: usize,
    goal: Goal,
    library: f64,
    rust: f64,
    copy: Option<f64>,
}

/// The rows in their order. A round measures each of them once; the best times of all rounds count.
#[derive(Default)]
pub struct Table {
    rows: Vec<Row>,
    next: usize,
}

impl Table {
    /// Begins a round: the next row is the first.
    pub fn begin(&mut self) {
        self.next = 0;
    }

    /// Measures a work that the library and plain Rust do.
    pub fn row(
        &mut self,
        work: &str,
        bytes: usize,
        library: &mut dyn FnMut(),
        rust: &mut dyn FnMut(),
    ) {
        let [library, rust] = timing::best([library, rust]);
        let goal = Goal::Rust;
        self.measured(Row { work: work.to_string(), bytes, goal, library, rust, copy: None });
    }

    /// Measures a work beside a bare copy of its bytes too, each way doing it `times` times: the
    /// times are those of one.
    #[allow(clippy::too_many_arguments)]
    pub fn row_with_copy(
        &mut self,
        work: &str,
        bytes: usize,
        times: usize,
        goal: Goal,
        library: &mut dyn FnMut(),
        rust: &mut dyn FnMut(),
        copy: &mut dyn FnMut(),
    ) {
        let all = timing::best([library, rust, copy]);
        let [library, rust, copy] = all.map(|all| all / times as f64);
        self.measured(Row { work: work.to_string(), bytes, goal, library, rust, copy: Some(copy) });
    }

    /// Keeps the better of the times of this round and those before.
    fn measured(&mut self, new: Row) {
        match self.rows.get_mut(self.next) {
            Some(row) => {
                row.library = row.library.min(new.library);
                row.rust = row.rust.min(new.rust);
                row.copy = row.copy.zip(new.copy).map(|(old, new)| old.min(new));
            }
            None => self.rows.push(new),
        }
        self.next += 1;
    }

    /// Prints the table in Markdown.
    pub fn print(&self) {
        println!("| Work | Bytes | Library, ns | Plain Rust, ns | Library to Rust | Bare copy, ns | Library to copy | |");
        println!("|---|--:|--:|--:|--:|--:|--:|---|");
        self.rows.iter().for_each(Row::print);
    }
}

impl Row {
    fn print(&self) {
        let Row { work, bytes, goal, library, rust, copy } = self;
        let to_rust = library / rust;
        let to_copy = copy.map(|copy| library / copy);
        let within = match (goal, to_copy) {
            (Goal::Copies(most), Some(to_copy)) => to_copy <= *most,
            _ => true,
        };
        let verdict = if to_rust <= WITHIN && within { "" } else { "behind" };
        print!("| {work} | {bytes} | {library:.1} | {rust:.1} | {to_rust:.2} |");
        match copy.zip(to_copy) {
            Some((copy, to_copy)) => println!(" {copy:.1} | {to_copy:.2} | {verdict} |"),
            None => println!(" | | {verdict} |"),
        }
    }
}

/// A ratio up to this counts as not slower: two runs of the same code differ by as much.
const WITHIN: f64 = 1.05;
