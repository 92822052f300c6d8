//! The command line, taken apart.

use std::ffi::{OsStr, OsString};
use std::os::unix::ffi::OsStrExt;
use std::path::Path;

use onion::NEWEST;

use crate::failure::Failure;

/// What a command takes.
pub struct Form {
    /// The names of what has to be given, in order.
    pub places: &'static [&'static str],
    /// The names of what may be given behind that.
    pub optional_places: &'static [&'static str],
    /// Options with the name of their value, or with none. All but the places may stand anywhere.
    pub options: &'static [(&'static str, Option<&'static str>)],
}

/// What was given.
#[derive(Debug, Default)]
pub struct Arguments {
    places: Vec<OsString>,
    options: Vec<(&'static str, OsString)>,
}

impl Form {
    /// Takes the words behind a command's name apart.
    pub fn parse(&self, words: Vec<OsString>) -> Result<Arguments, Failure> {
        let mut given = Arguments::default();
        let mut words = words.into_iter();
        let mut only_places = false;
        while let Some(word) = words.next() {
            if !only_places && word == "--" {
                only_places = true;
            } else if only_places || !looks_like_option(&word) {
                given.places.push(word);
            } else {
                let option = self.option(&word, &mut words)?;
                if given.option(option.0).is_some() {
                    return Err(Failure::Usage(format!("{} is given twice", option.0)));
                }
                given.options.push(option);
            }
        }
        self.count_places(&given)?;
        Ok(given)
    }

    /// An option with its value, which stands behind `=` or is the next word.
    fn option(
        &self,
        word: &OsStr,
        words: &mut impl Iterator<Item = OsString>,
    ) -> Result<(&'static str, OsString), Failure> {
        let (name, joined) = split_at_equals(word);
        let name = name.to_string_lossy();
        let known = self.options.iter().find(|(known, _)| *known == name);
        let (known, value_name) = match known {
            Some(&(known, value_name)) => (known, value_name),
            None => return Err(Failure::Usage(format!("there is no option {name}"))),
        };
        match (value_name, joined) {
            (None, None) => Ok((known, OsString::new())),
            (None, Some(_)) => Err(Failure::Usage(format!("{known} takes no value"))),
            (Some(_), Some(value)) => Ok((known, value.to_os_string())),
            (Some(value_name), None) => match words.next() {
                Some(value) if !looks_like_option(&value) => Ok((known, value)),
                _ => Err(Failure::Usage(format!("{known} needs {value_name}"))),
            },
        }
    }

    fn count_places(&self, given: &Arguments) -> Result<(), Failure> {
        if let Some(missing) = self.places.get(given.places.len()) {
            return Err(Failure::Usage(format!("{missing} is missing")));
        }
        let most = self.places.len() + self.optional_places.len();
        match given.places.get(most) {
            Some(extra) => Err(Failure::Usage(format!(
                "'{}' is one word too many",
                extra.to_string_lossy()
            ))),
            None => Ok(()),
        }
    }
}

impl Arguments {
    /// The path at a place that has to be given.
    pub fn path(&self, place: usize) -> &Path {
        Path::new(&self.places[place])
    }

    /// The path at a place that may be given.
    pub fn optional_path(&self, place: usize) -> Option<&Path> {
        self.places.get(place).map(Path::new)
    }

    /// The revision at a place that has to be given.
    pub fn revision_at(&self, place: usize) -> Result<u64, Failure> {
        revision(&self.places[place])
    }

    /// Whether an option is given.
    pub fn has(&self, name: &str) -> bool {
        self.option(name).is_some()
    }

    /// An option's value.
    pub fn option(&self, name: &str) -> Option<&OsStr> {
        let given = self.options.iter().find(|(given, _)| *given == name);
        given.map(|(_, value)| value.as_os_str())
    }

    /// An option's value as text. What is no text becomes a sign that the store refuses.
    pub fn text(&self, name: &str) -> Option<String> {
        self.option(name)
            .map(|value| value.to_string_lossy().into_owned())
    }

    /// An option's value as a number.
    pub fn number(&self, name: &str) -> Result<Option<u64>, Failure> {
        self.option(name)
            .map(|value| number(name, value))
            .transpose()
    }

    /// An option's value as a revision.
    pub fn revision(&self, name: &str) -> Result<Option<u64>, Failure> {
        self.option(name).map(revision).transpose()
    }
}

/// `--page=16` as `--page` and `16`. The value need not be text: a file may have any name.
fn split_at_equals(word: &OsStr) -> (&OsStr, Option<&OsStr>) {
    let bytes = word.as_bytes();
    match bytes.iter().position(|&byte| byte == b'=') {
        Some(place) => (
            OsStr::from_bytes(&bytes[..place]),
            Some(OsStr::from_bytes(&bytes[place + 1..])),
        ),
        None => (word, None),
    }
}

/// A single `-` is a place: a file may have that name.
fn looks_like_option(word: &OsStr) -> bool {
    let shown = word.to_string_lossy();
    shown.starts_with('-') && shown.len() > 1
}

fn number(name: &str, value: &OsStr) -> Result<u64, Failure> {
    let shown = value.to_string_lossy();
    shown
        .parse()
        .map_err(|_| Failure::Usage(format!("{name} needs a whole number, not '{shown}'")))
}

fn revision(value: &OsStr) -> Result<u64, Failure> {
    if value == "newest" {
        return Ok(NEWEST);
    }
    let shown = value.to_string_lossy();
    shown.parse().map_err(|_| {
        Failure::Usage(format!(
            "a revision is a whole number or 'newest', not '{shown}'"
        ))
    })
}

#[cfg(test)]
mod tests {
    use super::*;

    const FORM: Form = Form {
        places: &["HISTORY"],
        optional_places: &["ORIGINAL"],
        options: &[("--page", Some("N")), ("--branching", None)],
    };

    fn parse(line: &str) -> Result<Arguments, Failure> {
        FORM.parse(line.split_whitespace().map(OsString::from).collect())
    }

    fn complaint(line: &str) -> String {
        parse(line).unwrap_err().to_string()
    }

    #[test]
    fn options_stand_anywhere() {
        for line in ["h o --page 16", "--page 16 h o", "h --page=16 o"] {
            let given = parse(line).unwrap();
            assert_eq!(given.path(0), Path::new("h"));
            assert_eq!(given.optional_path(1), Some(Path::new("o")));
            assert_eq!(given.number("--page").unwrap(), Some(16));
            assert!(!given.has("--branching"));
        }
        let given = parse("--branching -- --page").unwrap();
        assert!(given.has("--branching"));
        assert_eq!(given.path(0), Path::new("--page"));
        assert_eq!(given.number("--page").unwrap(), None);
    }

    #[test]
    fn wrong_lines_are_told_apart() {
        assert_eq!(complaint(""), "HISTORY is missing");
        assert_eq!(complaint("a b c"), "'c' is one word too many");
        assert_eq!(complaint("a --pages 3"), "there is no option --pages");
        assert_eq!(complaint("a --page"), "--page needs N");
        assert_eq!(complaint("a --page --branching"), "--page needs N");
        assert_eq!(complaint("a --page 1 --page 2"), "--page is given twice");
        assert_eq!(complaint("a --branching=1"), "--branching takes no value");
    }

    #[test]
    fn numbers_and_revisions() {
        let given = parse("newest 12 --page 3x").unwrap();
        assert_eq!(given.revision_at(0).unwrap(), NEWEST);
        assert_eq!(given.revision_at(1).unwrap(), 12);
        assert_eq!(
            given.number("--page").unwrap_err().to_string(),
            "--page needs a whole number, not '3x'"
        );
    }
}
