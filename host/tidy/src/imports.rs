//! Imports that the file does not name.

use crate::names::{named, names};
use crate::source::{Finding, Source};
use std::collections::HashSet;

pub fn check(source: &Source) -> Vec<Finding> {
    let code: HashSet<&str> = source.code.iter().map(|t| t.text.as_str()).collect();
    let mut antt: HashSet<&str> = names(&source.antt).map(|(_, word)| word).collect();
    // A path may begin with what another `use` brings in.
    antt.extend(source.uses.iter().filter_map(|u| u.path.split('.').next()));
    let mut findings = Vec::new();
    for import in source.uses.iter().filter(|import| !import.public) {
        let words = if import.code { &code } else { &antt };
        for item in &import.items {
            if !named(&item.here, words.iter().copied()) {
                findings.push(source.finding(item.line, format!("unused import `{}`", item.here)));
            }
        }
    }
    findings
}

#[cfg(test)]
mod tests {
    use super::*;

    fn unused(path: &str, text: &str) -> Vec<(usize, String)> {
        let findings = check(&Source::new(path, text));
        let one = |finding: Finding| (finding.line, finding.what);
        findings.into_iter().map(one).collect()
    }

    #[test]
    fn in_antt() {
        let text = "use a.B.{b, c,\n  ◌+◌, d as e}\nuse a.F as f\nuse a.G as g\n-- b\nx : ℕ\nx = c + g.b\n";
        let expected = [
            (1, "unused import `b`".to_string()),
            (2, "unused import `e`".to_string()),
            (3, "unused import `f`".to_string()),
        ];
        assert_eq!(unused("crates/a/proofs/B.antt", text), expected);
    }

    #[test]
    fn passed_on_or_in_a_path() {
        let text = "pub use a.B.{b}\nuse a.C as c\nuse c.{d}\nx : ℕ\nx = d\n";
        assert_eq!(unused("crates/a/proofs/B.antt", text), []);
    }

    #[test]
    fn a_module_itself() {
        let text =
            "use a::b::{self, C};\nuse a::d::{self, E};\nfn f(c: C) -> b::G {\n  E::g(c)\n}\n";
        let expected = [(2, "unused import `d`".to_string())];
        assert_eq!(unused("crates/a/src/lib.rt", text), expected);
    }

    #[test]
    fn clauses_and_code_apart() {
        let text = "use a::B;\nuse a::C;\nuse a::D;\nghost use d.E.{◌+◌, e};\nfn f(c: C) -> u8\n  ensures { B e result }\n{\n  D::d(c.x + 1)\n}\n";
        let expected = [
            (1, "unused import `B`".to_string()),
            (4, "unused import `◌+◌`".to_string()),
        ];
        assert_eq!(unused("crates/a/src/lib.rt", text), expected);
    }
}
