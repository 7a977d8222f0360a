//! Holds the documents to the code.
//!
//! - Each name in backticks of the documents in [`NAMING`] is found where it says: a crate, a
//!   definition or a theorem of a crate's `specs/`, a field of a record, a function or a type of a
//!   crate's `src/`, a wrong program of `must-fail/` or `edits/`, an export, a file.
//! - Each crate of crates.txt stands in README's table, each export in the header and in HOSTS,
//!   each refusal 0 to 18 in REFUSALS.
//! - No public function has a `requires`, as the documents say.
//! - Each statement of `specs/` has a proof in `proofs/Laws/` and is named in its crate's
//!   `specs/Examples.antt`, where its premises are met, or it is said to have none; and in PROMISES.
//! - No line of a document is too long to read, and no cell of a table is a paragraph.
//!
//! What a name in backticks may be is said in [`names`]; what the repository has, in [`repository`].

pub mod layout;
pub mod markdown;
pub mod names;
pub mod repository;

use std::path::Path;

use repository::Repository;

/// The documents whose names are looked up.
pub const NAMING: [&str; 5] = [
    "README.md",
    "docs/PROMISES.md",
    "docs/DECISIONS.md",
    "docs/FOR-TESTERS.md",
    "docs/MEASURED.md",
];

/// What is wrong with the documents of the repository, a line each.
pub fn faults(root: &Path) -> Result<Vec<String>, String> {
    let repository = Repository::read(root)?;
    let mut faults = Vec::new();
    for document in NAMING {
        faults.extend(naming_faults(&repository, document, &repository::text(root, document)?));
    }
    let readme = repository::text(root, "README.md")?;
    let header = repository::text(root, "include/ashlarsilk.h")?;
    let hosts = repository::text(root, "docs/HOSTS.md")?;
    let refusals = repository::text(root, "docs/REFUSALS.md")?;
    faults.extend(crates_missing(&repository, &readme));
    faults.extend(exports_missing(&repository, "include/ashlarsilk.h", &header));
    faults.extend(exports_missing(&repository, "docs/HOSTS.md", &hosts));
    faults.extend(refusals_missing(&refusals));
    faults.extend(repository.asking.iter().map(|name| format!("`{name}` has a requires")));
    let promises = repository::text(root, "docs/PROMISES.md")?;
    faults.extend(statements_missing(&repository, &promises));
    for document in repository::documents(root)? {
        faults.extend(layout::faults(&document, &repository::text(root, &document)?));
    }
    Ok(faults)
}

/// The names of one document that are not found.
pub fn naming_faults(repository: &Repository, document: &str, text: &str) -> Vec<String> {
    let mut faults = Vec::new();
    for (number, spans) in markdown::lines_with_spans(text) {
        for span in names::not_found(repository, &spans) {
            faults.push(format!("{document}:{number}: `{span}` is not found"));
        }
    }
    faults
}

/// Crates of crates.txt that README's table doesn't name.
pub fn crates_missing(repository: &Repository, readme: &str) -> Vec<String> {
    let named: Vec<String> = readme
        .lines()
        .filter(|line| line.starts_with('|'))
        .flat_map(markdown::spans)
        .map(|span| span.trim_start_matches("crates/").to_string())
        .collect();
    let stands = |name: &String| named.iter().any(|pattern| repository::matches(pattern, name));
    let missing = repository.crates.keys().filter(|name| !stands(name));
    missing.map(|name| format!("README.md: crate `{name}` is in no row of a table")).collect()
}

/// Exports that a document doesn't name in full.
pub fn exports_missing(repository: &Repository, document: &str, text: &str) -> Vec<String> {
    let words: Vec<&str> = text.split(|c: char| !c.is_alphanumeric() && c != '_').collect();
    let missing = repository.exports.iter().filter(|export| !words.contains(&export.as_str()));
    missing.map(|export| format!("{document}: the export `{export}` is not named")).collect()
}

/// Statements without a proof, without an example of their crate, or that PROMISES doesn't name.
pub fn statements_missing(repository: &Repository, promises: &str) -> Vec<String> {
    let named =
        |name: &str| promises.split(|c: char| !c.is_alphanumeric()).any(|word| word == name);
    let mut faults = Vec::new();
    for (krate, found) in &repository.crates {
        for name in &found.statements {
            let example = found.specs.get("Examples").is_some_and(|defined| defined.contains(name));
            if !found.proved.contains(name) {
                faults.push(format!("crates/{krate}: the statement `{name}` has no proof"));
            }
            if !found.examples.contains(name) {
                faults.push(format!("crates/{krate}/specs/Examples.antt: `{name}` has no example"));
            }
            if !example && !named(name) {
                faults.push(format!(
                    "docs/PROMISES.md: `{krate}` states `{name}`, which is not named"
                ));
            }
        }
    }
    faults
}

/// Refusals 0 to 18 that have no row of their own, or more than one.
pub fn refusals_missing(text: &str) -> Vec<String> {
    let rows = |number: u8| {
        let begin = format!("| {number} |");
        text.lines().filter(|line| line.starts_with(&begin)).count()
    };
    let wrong = (0..=18).filter(|number| rows(*number) != 1);
    wrong
        .map(|number| format!("docs/REFUSALS.md: {} rows begin with `| {number} |`", rows(number)))
        .collect()
}
