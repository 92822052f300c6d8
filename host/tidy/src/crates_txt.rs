//! Crates that a line of crates.txt gives to a crate whose files name none of them.

use crate::source::{paths, Finding, Source};

pub const PATH: &str = "crates.txt";

/// A line's number, its crate, and the crates that it rests on. Between the crate and the colon may stand what it is built as.
pub fn lines(text: &str) -> Vec<(usize, &str, Vec<&str>)> {
    let parsed = text.lines().enumerate().filter_map(|(at, line)| {
        let line = line.split('#').next()?;
        let (crate_, others) = line.split_once(':').unwrap_or((line, ""));
        let name = crate_.split_whitespace().next()?;
        Some((at + 1, name, others.split_whitespace().collect()))
    });
    parsed.collect()
}

pub fn check(text: &str, sources: &[Source]) -> Vec<Finding> {
    let mut findings = Vec::new();
    for (line, name, others) in lines(text) {
        let own = || sources.iter().filter(|source| source.owner() == name);
        for other in others {
            if !own().any(|source| names_crate(source, other)) {
                findings.push(Finding {
                    path: PATH.to_string(),
                    line,
                    what: format!("`{name}` does not name `{other}`"),
                });
            }
        }
    }
    findings
}

/// As `other::` in code, or as `Rattle.other` at the head of a path of antt.
fn names_crate(source: &Source, other: &str) -> bool {
    let heads = |path: &str| {
        let mut parts = path.split('.');
        parts.next() == Some("Rattle") && parts.next() == Some(other)
    };
    let in_code = source
        .code
        .windows(3)
        .any(|three| three[0].text == other && three[1].text == ":" && three[2].text == ":");
    let in_antt = paths(&source.antt).any(|path| heads(&path));
    let brought = source.uses.iter().any(|import| match import.code {
        true => import.path.split("::").next() == Some(other),
        false => heads(&import.path),
    });
    in_code || in_antt || brought
}

#[cfg(test)]
mod tests {
    use super::*;

    fn found(text: &str) -> Vec<(usize, String)> {
        let sources = [
            Source::new("crates/a/src/lib.rt", "use b::B;\nfn f() { c::g() }\n"),
            Source::new(
                "crates/a/specs/A.antt",
                "use Rattle.d.specs.D.{x}\ny : x\ny = Rattle.e.specs.E.z\n",
            ),
            Source::new("crates/h/src/lib.rt", "fn f() { a::f() }\n"),
        ];
        let one = |finding: Finding| (finding.line, finding.what);
        check(text, &sources).into_iter().map(one).collect()
    }

    #[test]
    fn named_crates() {
        assert_eq!(found("# all\na: b c d e # f\nh staticlib: a\nz\n"), []);
    }

    #[test]
    fn crates_that_are_not_named() {
        let expected = [
            (1, "`h` does not name `b`".to_string()),
            (2, "`a` does not name `specs`".to_string()),
            (2, "`a` does not name `f`".to_string()),
            (2, "`a` does not name `libc`".to_string()),
        ];
        assert_eq!(found("h staticlib: a b\na: b specs f libc\n"), expected);
    }

    #[test]
    fn what_a_line_says() {
        let text = "\n# all\na: b c\nh staticlib opt_level=1: a # b\nz\n";
        let expected = [
            (3, "a", vec!["b", "c"]),
            (4, "h", vec!["a"]),
            (5, "z", vec![]),
        ];
        assert_eq!(lines(text), expected);
    }

    #[test]
    fn whole_names() {
        let source = Source::new(
            "crates/a/specs/A.antt",
            "use Rattle.session_reading.specs.S.{x}\n",
        );
        assert!(names_crate(&source, "session_reading"));
        assert!(!names_crate(&source, "session"));
    }
}
