//! Which spans in backticks are names, and whether each is found.
//!
//! | Form | Example | Found where |
//! |---|---|---|
//! | crate | `wire` | crates.txt |
//! | crate File, crate File.name | `wire Sequence.is_newer` | that file of the crate's specs |
//! | crate Laws.File | `wire Laws.Below` | that file of the crate's laws |
//! | File.name, Record.field | `Sequence.is_newer` | a crate that the same line names, else any |
//! | crate::module::item, crate::{a, b} | `wire::sequence::newer` | that module of the crate |
//! | module::item, Type::item | `Session::fresh` | any crate |
//! | path | `crates/wire/src` | the file or the folder; not below `target/`, where it is built |
//! | a single word | `DemandThree`, `decimal_for_hex` | any of the above |
//!
//! Everything else is text of its own: a command, bytes, a piece of code.

use crate::repository::{Crate, Repository};

/// Single words in backticks that are no names of the repository: words of the languages and tools,
/// and of the protocol.
const WORDS: &[&str] = &["requires", "rt", "cargo", "cc", "NONE"];

/// What a contract says of a lent value, as `s.old`.
const ENDS: [&str; 3] = [".now", ".old", ".new"];

/// The spans of one line that are names and are not found. The crates that the line names decide for
/// names that say no crate.
pub fn not_found<'a>(repository: &Repository, spans: &'a [String]) -> Vec<&'a str> {
    let named: Vec<&Crate> =
        spans.iter().filter_map(|span| named_crate(repository, span)).collect();
    let found = |span: &&str| !is_found(repository, &named, span);
    spans.iter().map(String::as_str).filter(found).collect()
}

/// The crate of a span that says a crate and what stands in it.
fn named_crate<'a>(repository: &'a Repository, span: &str) -> Option<&'a Crate> {
    repository.crates.get(span.split_once(' ').or_else(|| span.split_once("::"))?.0)
}

fn is_found(repository: &Repository, named: &[&Crate], span: &str) -> bool {
    if is_path_of_code(span) {
        return grouped(span).iter().all(|path| has_item(repository, path));
    }
    let words: Vec<&str> = span.split(' ').collect();
    match words[..] {
        [name, place] if repository.crates.contains_key(name) => {
            defines(&repository.crates[name], place)
                || repository.crates[name].edits.contains(place)
        }
        [name, place] if is_name(name) && is_file(place) => false,
        [word] if word.contains('/') && is_plain(word) => {
            word.starts_with("target/") || repository.has_path(word)
        }
        [word] if is_lent(word) => true,
        [word] if is_dotted(word) => {
            let any: Vec<&Crate> = repository.crates.values().collect();
            let among = if named.is_empty() { &any[..] } else { named };
            among.iter().any(|found| defines(found, word)) || repository.has_path(word)
        }
        [word] if is_name(word) => WORDS.contains(&word) || is_known(repository, word),
        ["./ashlarsilk", command, ..] => is_command(repository, command),
        _ => true,
    }
}

/// Whether a crate's specs or laws have `File`, `File.name`, `Record.field` or `File.Record.field`.
fn defines(found: &Crate, place: &str) -> bool {
    let (files, place) = match place.strip_prefix("Laws.") {
        Some(place) => (&found.laws, place),
        None => (&found.specs, place),
    };
    let within = |file: &str, name: &str| files.get(file).is_some_and(|names| names.contains(name));
    files.contains_key(place)
        || place.split_once('.').is_some_and(|(file, name)| within(file, name))
        || files.values().any(|names| names.contains(place))
}

/// `a::{b, c}` as `a::b` and `a::c`.
fn grouped(path: &str) -> Vec<String> {
    match path.split_once('{') {
        Some((front, rest)) => rest
            .trim_end_matches('}')
            .split(',')
            .map(|item| format!("{front}{}", item.trim()))
            .collect(),
        None => vec![path.to_string()],
    }
}

/// Whether there is such an item: in that crate and module, or, where the path names no crate, in
/// any.
fn has_item(repository: &Repository, path: &str) -> bool {
    let parts: Vec<&str> = path.split("::").collect();
    match (repository.crates.get(parts[0]), &parts[1..]) {
        (Some(found), [module, item]) if found.modules.contains_key(*module) => {
            found.modules[*module].contains(*item)
        }
        (Some(found), [module, kind, item]) if found.modules.contains_key(*module) => {
            found.modules[*module].contains(&format!("{kind}::{item}"))
        }
        (Some(found), [item]) => ["lib", "main"]
            .iter()
            .any(|root| found.modules.get(*root).is_some_and(|items| items.contains(*item))),
        (Some(found), [kind, item]) => {
            let item = format!("{kind}::{item}");
            found.modules.get("lib").is_some_and(|items| items.contains(&item))
        }
        (None, [item]) => repository.crates.values().any(|found| {
            found.modules.get(parts[0]).is_some_and(|items| items.contains(*item))
                || found.modules.values().any(|items| items.contains(path))
        }),
        _ => false,
    }
}

/// Whether a single word is a name of the repository.
fn is_known(repository: &Repository, word: &str) -> bool {
    let in_crate = |found: &Crate| {
        found.edits.contains(word)
            || found.specs.contains_key(word)
            || found.modules.contains_key(word)
            || found.specs.values().chain(found.laws.values()).any(|names| names.contains(word))
            || found.modules.values().any(|items| items.contains(word))
    };
    repository.crates.keys().any(|name| crate::repository::matches(word, name))
        || repository.exports.contains(word)
        || repository.crates.values().any(in_crate)
        || word.contains(char::is_lowercase) && repository.has_path(word)
}

/// Whether the launcher has such a command.
fn is_command(repository: &Repository, command: &str) -> bool {
    let launcher = crate::repository::text(&repository.root, "ashlarsilk").unwrap_or_default();
    let arm = |line: &str| {
        line.trim().split(')').next().unwrap_or("").split('|').any(|word| word.trim() == command)
    };
    launcher.lines().any(arm)
}

/// Whether a word is what a contract says of a lent value.
fn is_lent(word: &str) -> bool {
    let plain = |name: &str| !name.is_empty() && name.chars().all(|c| c.is_ascii_lowercase());
    ENDS.iter().any(|end| word.strip_suffix(end).is_some_and(plain))
}

/// Whether a word is as `File` or `File.name` is written.
fn is_file(word: &str) -> bool {
    word.starts_with(|c: char| c.is_uppercase()) && (is_name(word) || is_dotted(word))
}

/// Whether a span is as `a::b` or `a::{b, c}` is written.
fn is_path_of_code(span: &str) -> bool {
    span.contains("::") && span.chars().all(|c| c.is_alphanumeric() || "_:{}, ".contains(c))
}

fn is_plain(word: &str) -> bool {
    word.chars().all(|c| c.is_alphanumeric() || "_-./*".contains(c))
}

fn is_dotted(word: &str) -> bool {
    word.contains('.')
        && !word.contains("..")
        && is_plain(word)
        && !word.contains('/')
        && starts_as_name(word)
}

fn is_name(word: &str) -> bool {
    starts_as_name(word) && word.chars().all(|c| c.is_alphanumeric() || "_-*".contains(c))
}

fn starts_as_name(word: &str) -> bool {
    let hexadecimal =
        word.len() == 4 && word.chars().all(|c| c.is_ascii_digit() || ('A'..='F').contains(&c));
    word.starts_with(|c: char| c.is_alphabetic()) && !hexadecimal
}
