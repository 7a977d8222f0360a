//! Command lines: options with and without a value, each at most once.

use std::ffi::{OsStr, OsString};
use std::fmt::Display;
use std::ops::RangeInclusive;
use std::str::FromStr;

/// What the command line gave.
pub struct Arguments {
    given: Vec<(&'static str, Option<OsString>)>,
}

impl Arguments {
    /// Takes a command line apart. `switches` are the options without a value, `values` those with
    /// one.
    pub fn take(
        line: impl IntoIterator<Item = OsString>,
        switches: &[&'static str],
        values: &[&'static str],
    ) -> Result<Self, String> {
        let mut line = line.into_iter();
        let mut given: Vec<(&'static str, Option<OsString>)> = Vec::new();
        while let Some(argument) = line.next() {
            let named =
                |names: &[&'static str]| names.iter().copied().find(|name| argument == *name);
            let (name, value) = match (named(switches), named(values)) {
                (Some(name), _) => (name, None),
                (None, Some(name)) => {
                    let value = line.next().ok_or_else(|| format!("{name} needs a value"))?;
                    (name, Some(value))
                }
                (None, None) => return Err(format!("no option {argument:?}")),
            };
            if given.iter().any(|(other, _)| *other == name) {
                return Err(format!("{name} is given twice"));
            }
            given.push((name, value));
        }
        Ok(Arguments { given })
    }

    /// Whether this option without a value is given.
    pub fn has(&self, name: &str) -> bool {
        self.given.iter().any(|(given, _)| *given == name)
    }

    /// The value of this option, if it is given.
    pub fn value(&self, name: &str) -> Option<&OsStr> {
        let (_, value) = self.given.iter().find(|(given, _)| *given == name)?;
        value.as_deref()
    }

    /// The number that this option gives, if it is given.
    pub fn number<N>(&self, name: &str, range: RangeInclusive<N>) -> Result<Option<N>, String>
    where
        N: FromStr + PartialOrd + Display,
    {
        let Some(value) = self.value(name) else { return Ok(None) };
        match value.to_str().and_then(|text| text.parse().ok()) {
            Some(number) if range.contains(&number) => Ok(Some(number)),
            _ => {
                let (least, most) = range.into_inner();
                Err(format!("{name} takes a number from {least} to {most}, not {value:?}"))
            }
        }
    }
}

#[cfg(test)]
mod tests {
    use super::*;

    fn take(line: &[&str]) -> Result<Arguments, String> {
        Arguments::take(line.iter().map(OsString::from), &["--once"], &["--tcp", "--file"])
    }

    fn fault(line: &[&str]) -> String {
        take(line).err().unwrap()
    }

    #[test]
    fn options_in_any_order() {
        let arguments = take(&["--tcp", "7250", "--once"]).unwrap();
        assert!(arguments.has("--once"));
        assert_eq!(arguments.number("--tcp", 0..=u16::MAX), Ok(Some(7250)));
        assert_eq!(arguments.value("--file"), None);
        let arguments = take(&["--file", "--once"]).unwrap();
        assert!(!arguments.has("--once"));
        assert_eq!(arguments.value("--file"), Some(OsStr::new("--once")));
        assert_eq!(arguments.number("--tcp", 0..=u16::MAX), Ok(None));
    }

    #[test]
    fn faults_in_words() {
        assert_eq!(fault(&["--other"]), "no option \"--other\"");
        assert_eq!(fault(&["7250"]), "no option \"7250\"");
        assert_eq!(fault(&["--tcp"]), "--tcp needs a value");
        assert_eq!(fault(&["--once", "--once"]), "--once is given twice");
        for wrong in ["65536", "-1", "", "x", "1.0", "0"] {
            let fault = take(&["--tcp", wrong]).unwrap().number("--tcp", 1..=u16::MAX).unwrap_err();
            assert_eq!(fault, format!("--tcp takes a number from 1 to 65535, not {wrong:?}"));
        }
    }
}
