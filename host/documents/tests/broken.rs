//! A name that is broken on purpose is found, in the documents as they are; and none is as they are.

use std::path::{Path, PathBuf};

use documents::repository::{self, Repository};
use documents::{
    crates_missing, exports_missing, faults, layout, naming_faults, refusals_missing,
    statements_missing,
};

fn root() -> PathBuf {
    Path::new(env!("CARGO_MANIFEST_DIR")).join("../..")
}

/// What is wrong with a document once one piece of it is replaced.
fn broken(document: &str, old: &str, new: &str) -> Vec<String> {
    let text = repository::text(&root(), document).unwrap();
    assert!(text.contains(old), "{document} has no {old}");
    naming_faults(&Repository::read(&root()).unwrap(), document, &text.replacen(old, new, 1))
}

#[test]
fn the_documents_as_they_are() {
    assert_eq!(faults(&root()).unwrap(), Vec::<String>::new());
}

#[test]
fn a_broken_name_of_each_kind() {
    let promises = "docs/PROMISES.md";
    for (document, old, new) in [
        (promises, "`wire Sequence.is_newer`", "`wire Sequence.is_older`"),
        (promises, "`wire Sequence.is_newer`", "`wires Sequence.is_newer`"),
        (promises, "`wire Sequence.is_newer`", "`wire Order.is_newer`"),
        (promises, "`wire::sequence::newer`", "`wire::sequence::older`"),
        (promises, "`wire::sequence::newer`", "`wire::order::newer`"),
        (
            promises,
            "`wire::signed::{signed16, unsigned16}`",
            "`wire::signed::{signed16, unsigned17}`",
        ),
        (promises, "`Shown.each_accepted`", "`Shown.accepted`"),
        (promises, "`OpenedAs`", "`OpenAs`"),
        (promises, "`ashlarsilk_limits_read`", "`ashlarsilk_limits_reads`"),
        (promises, "`text decimal_for_hex`", "`text decimal_for_octal`"),
        (promises, "`./ashlarsilk edits`", "`./ashlarsilk edit`"),
        ("README.md", "`host/compare`", "`host/comparison`"),
        ("README.md", "`crates/NAME/specs`", "`crates/NAME/definitions`"),
        ("docs/DECISIONS.md", "`message_reader`", "`message_listener`"),
    ] {
        let faults = broken(document, old, new);
        assert_eq!(faults.len(), 1, "{new}: {faults:?}");
        assert!(faults[0].contains(new), "{new}: {faults:?}");
    }
}

#[test]
fn what_is_missing() {
    let repository = Repository::read(&root()).unwrap();
    let readme = repository::text(&root(), "README.md").unwrap();
    assert_eq!(crates_missing(&repository, &readme.replace("`replay`", "")).len(), 1);
    let hosts = repository::text(&root(), "docs/HOSTS.md").unwrap();
    let without = hosts.replace("ashlarsilk_pointer_fresh", "_fresh");
    assert_eq!(exports_missing(&repository, "docs/HOSTS.md", &without).len(), 1);
    let refusals = repository::text(&root(), "docs/REFUSALS.md").unwrap();
    assert_eq!(refusals_missing(&refusals.replace("| 17 |", "| 19 |")).len(), 1);
}

#[test]
fn a_statement_without_proof_example_or_promise() {
    let promises = repository::text(&root(), "docs/PROMISES.md").unwrap();
    let mut repository = Repository::read(&root()).unwrap();
    let count =
        |repository: &Repository, promises: &str| statements_missing(repository, promises).len();
    assert!(repository.crates["cursor_calls"].statements.contains("RunDecoded"));
    assert_eq!(count(&repository, &promises), 0);
    assert_eq!(count(&repository, &promises.replace("RunDecoded", "")), 1);
    let found = repository.crates.get_mut("cursor_calls").unwrap();
    assert!(found.proved.remove("RunDecoded") && found.examples.remove("RunDecoded"));
    assert_eq!(count(&repository, &promises), 2);
}

#[test]
fn a_public_function_that_asks() {
    let source = "pub fn a(x: u8) -> u8 {\n    x\n}\n\
                  pub fn b(x: u8) -> u8\n    requires { x }\n    ensures { x }\n{\n}\n\
                  pub(crate) fn c(x: u8)\n    requires { x }\n{\n}\n\
                  pub fn d(x: u8)\n    ensures { x }\n{\n}\n";
    assert_eq!(repository::asks(source), ["b"]);
}

#[test]
fn long_lines_and_cells() {
    let words = "word ".repeat(70);
    assert_eq!(layout::faults("a", &words).len(), 1);
    assert_eq!(layout::faults("a", &format!("| a | {words} |")).len(), 1);
    assert_eq!(layout::faults("a", "a `name\nof` two lines\n").len(), 2);
    assert_eq!(layout::faults("a", "a line\n| a cell |\n").len(), 0);
}
