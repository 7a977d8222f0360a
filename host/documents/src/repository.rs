//! What the repository has: crates, and in each the definitions of its specs, the items of its
//! sources and its wrong programs; the exports; the files.

use std::collections::{BTreeMap, BTreeSet};
use std::fs;
use std::path::{Path, PathBuf};

/// One crate: names by the file or module that they stand in.
#[derive(Default)]
pub struct Crate {
    /// Of each file of `specs/`, what it defines; a field or a constructor stands as `Type.field`
    /// and by its own name.
    pub specs: BTreeMap<String, BTreeSet<String>>,
    /// Of each file of `proofs/Laws/`, the laws that it has.
    pub laws: BTreeMap<String, BTreeSet<String>>,
    /// Of each module, its functions, types and constants; `lib` is the root. What stands in an
    /// `impl` block, a field or a variant stands as `Type::name` and by its own name.
    pub modules: BTreeMap<String, BTreeSet<String>>,
    /// The wrong programs, in the gate or in `edits/`.
    pub edits: BTreeSet<String>,
    /// The statements of `specs/`: definitions of type `Type 0`.
    pub statements: BTreeSet<String>,
    /// What the laws of `proofs/Laws/` are proofs of.
    pub proved: BTreeSet<String>,
    /// The words of `specs/Examples.antt`.
    pub examples: BTreeSet<String>,
}

/// What the documents are held to.
pub struct Repository {
    pub root: PathBuf,
    pub crates: BTreeMap<String, Crate>,
    pub exports: BTreeSet<String>,
    /// Public functions that ask something of their input, each with its crate and module.
    pub asking: BTreeSet<String>,
}

impl Repository {
    /// Reads the crates that crates.txt lists.
    pub fn read(root: &Path) -> Result<Repository, String> {
        let mut crates = BTreeMap::new();
        let mut exports = BTreeSet::new();
        let mut asking = BTreeSet::new();
        for line in text(root, "crates.txt")?.lines() {
            let Some((front, _)) = line.split_once(':').filter(|_| !line.starts_with('#')) else {
                continue;
            };
            let name = front.split(' ').next().unwrap_or(front);
            let folder = root.join("crates").join(name);
            let mut found = Crate::default();
            for (file, text) in files(&folder.join("specs"), "antt")? {
                if file == "Examples" {
                    found.examples.extend(words(&text).into_iter().map(String::from));
                }
                found.statements.extend(statements(&text));
                found.specs.insert(file, definitions(&text));
            }
            for (file, text) in files(&folder.join("proofs/Laws"), "antt")? {
                found.proved.extend(proved(&text));
                found.laws.insert(file, definitions(&text));
            }
            for (file, text) in files(&folder.join("src"), "rt")? {
                exports.extend(exported(&text));
                asking
                    .extend(asks(&text).into_iter().map(|item| format!("{name}::{file}::{item}")));
                found.modules.insert(file, items(&text));
            }
            for folder in [folder.join("must-fail"), root.join("edits").join(name)] {
                found.edits.extend(files(&folder, "edit")?.into_keys());
            }
            crates.insert(name.to_string(), found);
        }
        Ok(Repository { root: root.to_path_buf(), crates, exports, asking })
    }

    /// Whether there is such a file or folder. A star, or a word in capitals such as NAME, stands
    /// for anything.
    pub fn has_path(&self, path: &str) -> bool {
        let mut folders = vec![self.root.clone()];
        for part in path.trim_end_matches('/').split('/').filter(|part| *part != ".") {
            let pattern = if part.chars().all(|c| c.is_ascii_uppercase()) { "*" } else { part };
            let inside = folders.iter().flat_map(|folder| entries(folder));
            let fits = |entry: &PathBuf| {
                let name = entry.file_name().map(|name| name.to_string_lossy().into_owned());
                name.is_some_and(|name| matches(pattern, &name))
            };
            folders = inside.filter(fits).collect();
        }
        !folders.is_empty()
    }
}

/// Whether a name fits a pattern, in which a star stands for anything.
pub fn matches(pattern: &str, name: &str) -> bool {
    match pattern.split_once('*') {
        None => pattern == name,
        Some((front, rest)) => {
            name.starts_with(front)
                && (front.len()..=name.len())
                    .filter(|at| name.is_char_boundary(*at))
                    .any(|at| matches(rest, &name[at..]))
        }
    }
}

/// A file of the repository.
pub fn text(root: &Path, file: &str) -> Result<String, String> {
    fs::read_to_string(root.join(file)).map_err(|error| format!("{file}: {error}"))
}

/// README and the files of docs/, but for PORT.md and DESIGN-PASS.md, which name what was beside what
/// is.
pub fn documents(root: &Path) -> Result<Vec<String>, String> {
    let mut found = vec!["README.md".to_string()];
    found
        .extend(files(&root.join("docs"), "md")?.into_keys().map(|name| format!("docs/{name}.md")));
    found.retain(|name| !["docs/PORT.md", "docs/DESIGN-PASS.md"].contains(&name.as_str()));
    Ok(found)
}

fn entries(folder: &Path) -> Vec<PathBuf> {
    fs::read_dir(folder).into_iter().flatten().flatten().map(|entry| entry.path()).collect()
}

/// The files of a folder with that ending, by their names without it; none if there is no folder.
fn files(folder: &Path, ending: &str) -> Result<BTreeMap<String, String>, String> {
    let mut found = BTreeMap::new();
    for path in entries(folder) {
        if path.extension().is_some_and(|other| other == ending) {
            let name = path.file_stem().map(|name| name.to_string_lossy().into_owned());
            let text = fs::read_to_string(&path);
            let text = text.map_err(|error| format!("{}: {error}", path.display()))?;
            found.insert(name.unwrap_or_default(), text);
        }
    }
    Ok(found)
}

/// The words of a line, cut at what can't be part of a name.
fn words(line: &str) -> Vec<&str> {
    let inside = |c: char| c.is_alphanumeric() || "_-′'".contains(c);
    line.split(|c: char| !inside(c)).filter(|word| !word.is_empty()).collect()
}

const MARKS: [&str; 3] = ["abbrev", "unfoldable", "pub"];

/// The definitions, types, fields and constructors of a file of antt.
fn definitions(text: &str) -> BTreeSet<String> {
    let mut found = BTreeSet::new();
    let mut within = String::new();
    for line in text.lines().filter(|line| !line.trim_start().starts_with("--")) {
        let mut words = words(line).into_iter().skip_while(|word| MARKS.contains(word));
        let Some(first) = words.next() else { continue };
        if !line.starts_with(' ') {
            within.clear();
            if ["data", "record"].contains(&first) {
                within = words.next().unwrap_or_default().to_string();
                found.insert(within.clone());
            } else if !["use", "module", "unfolding", "mod"].contains(&first) {
                found.insert(first.to_string());
            }
        } else if line.starts_with("  ") && !line.starts_with("   ") && !within.is_empty() {
            found.insert(format!("{within}.{first}"));
            found.insert(first.to_string());
        }
    }
    found
}

/// The definitions of type `Type 0`, which are statements, but for a type of values.
fn statements(text: &str) -> Vec<String> {
    let name = |line: &str| {
        let marked = line.strip_prefix("abbrev pub ").or(line.strip_prefix("unfoldable pub "))?;
        Some(marked.strip_suffix(" : Type 0")?.to_string())
    };
    let values = |name: &String| text.contains(&format!("\n{name} = Result "));
    let stated = text.lines().filter_map(name).filter(|name| !name.contains(' '));
    stated.filter(|name| !values(name)).collect()
}

/// Of each law, the first word of its type.
fn proved(text: &str) -> Vec<String> {
    let of_law = |line: &str| {
        Some(words(line.strip_prefix("pub ")?.split_once(" : ")?.1).first()?.to_string())
    };
    text.lines().filter_map(of_law).collect()
}

/// The functions, types, constants, fields and variants of a source, and what it passes on by
/// `pub use`.
fn items(text: &str) -> BTreeSet<String> {
    let mut found = BTreeSet::new();
    let mut within = String::new();
    for line in text.lines().filter(|line| !line.trim_start().starts_with("//")) {
        let passed_on = line.starts_with("pub use ") || line.starts_with("pub mod ");
        let words: Vec<&str> = words(line)
            .into_iter()
            .filter(|word| !["pub", "crate", "extern", "C"].contains(word))
            .collect();
        let indent = line.len() - line.trim_start().len();
        match words[..] {
            _ if passed_on => {
                found.insert(words.last().unwrap_or(&"").to_string());
            }
            ["fn" | "const" | "type", name, ..] if indent <= 4 => {
                if indent == 4 {
                    found.insert(format!("{within}::{name}"));
                }
                found.insert(name.to_string());
            }
            ["struct" | "enum" | "impl", name, ..] if indent == 0 => {
                within = name.to_string();
                found.insert(within.clone());
            }
            [name, ..] if indent == 4 && !within.is_empty() => {
                found.insert(format!("{within}::{name}"));
                found.insert(name.to_string());
            }
            _ => {}
        }
        if line == "}" {
            within.clear();
        }
    }
    found
}

/// The functions of a source that C can call.
fn exported(text: &str) -> Vec<String> {
    let lines = text.lines().filter_map(|line| line.strip_prefix("pub extern \"C\" fn "));
    lines.filter_map(|line| words(line).first().map(|name| name.to_string())).collect()
}

/// The public functions of a source that have a `requires`.
pub fn asks(text: &str) -> Vec<String> {
    let mut found = Vec::new();
    let mut lines = text.lines();
    while let Some(line) = lines.next() {
        let front = line.trim_start();
        if !front.starts_with("pub fn ") && !front.starts_with("pub extern \"C\" fn ") {
            continue;
        }
        let name = words(front).into_iter().skip_while(|word| *word != "fn").nth(1);
        let clause = |line: &str| line.starts_with("requires") || line.starts_with("ensures");
        let head = std::iter::once(line).chain(lines.by_ref());
        let mut head = head.map(str::trim).take_while(|line| clause(line) || !line.ends_with('{'));
        if head.any(|line| line.starts_with("requires")) {
            found.push(name.unwrap_or_default().to_string());
        }
    }
    found
}
