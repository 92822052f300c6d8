//! Functions of the code that take too many parameters.

use crate::source::{Finding, Source};
use crate::tokens::in_code_name;

const MOST: usize = 7;

/// A function that needs more has a comment directly above it that begins so, with the reason.
const COMMENT: &str = "// More than seven parameters: ";

pub fn check(source: &Source) -> Vec<Finding> {
    let text = |at: usize| source.code.get(at).map_or("", |token| token.text.as_str());
    // Behind the `fn` of a type stands a bracket.
    let functions = (0..source.code.len())
        .filter(|&at| text(at) == "fn" && text(at + 1).starts_with(in_code_name));
    let counted = functions.map(|at| (at + 1, count((at + 2..source.code.len()).map(text))));
    counted
        .filter(|&(at, count)| count > MOST && !explained(source, source.code[at].line))
        .map(|(at, count)| {
            let what = format!("`{}` takes {count} parameters, more than {MOST}", text(at));
            source.finding(source.code[at].line, what)
        })
        .collect()
}

/// Whether the line above a function gives the reason for its parameters.
fn explained(source: &Source, line: usize) -> bool {
    let above = line.checked_sub(2).and_then(|at| source.lines.get(at));
    above.map_or(false, |text| text.starts_with(COMMENT))
}

/// The parameters in the first brackets behind those of types, without `self`.
fn count<'a>(words: impl Iterator<Item = &'a str>) -> usize {
    let mut before = "";
    let mut depth = 0;
    // An arrow closes nothing.
    let words = words.filter(|&word| {
        let arrow = before == "-" && word == ">";
        before = word;
        !arrow
    });
    let words = words.skip_while(|&word| {
        depth += i32::from(word == "<") - i32::from(word == ">");
        word != "(" || depth > 0
    });
    let mut depth = 0;
    let mut count = 0;
    // Whether the present parameter has a word of its own, and whether that is `self`.
    let (mut begun, mut receiver) = (false, false);
    for word in words.skip(1) {
        if depth == 0 && (word == "," || word == ")") {
            count += usize::from(begun && !receiver);
            (begun, receiver) = (false, false);
            if word == ")" {
                break;
            }
            continue;
        }
        match word {
            "(" | "[" | "<" => depth += 1,
            ")" | "]" | ">" => depth -= 1,
            _ => {}
        }
        receiver |= !begun && word == "self";
        begun |= !matches!(word, "&" | "mut" | "'");
    }
    count
}

#[cfg(test)]
mod tests {
    use super::*;

    fn found(text: &str) -> Vec<(usize, String)> {
        let findings = check(&Source::new("crates/a/src/lib.rt", text));
        let one = |finding: Finding| (finding.line, finding.what);
        findings.into_iter().map(one).collect()
    }

    #[test]
    fn eight_with_a_reason() {
        let eight = "fn f(a: u8, b: u8, c: u8, d: u8, e: u8, f: u8, g: u8, h: u8) {}\n";
        let reason = "// More than seven parameters: a test.\n";
        assert_eq!(found(&format!("{reason}{eight}")), []);
        assert_eq!(found(&format!("{reason}\n{eight}")).len(), 1);
    }

    #[test]
    fn seven_and_eight() {
        let seven = "a: u8, b: u8, c: u8, d: u8, e: u8, f: u8, g: [u8; 2]";
        assert_eq!(found(&format!("fn few({seven}) {{ h(1, 2) }}")), []);
        assert_eq!(found(&format!("fn few({seven},) {{}}")), []);
        let expected = [(2, "`many` takes 8 parameters, more than 7".to_string())];
        assert_eq!(
            found(&format!(
                "fn few(f: fn(u8) -> u8) {{}}\nfn many({seven}, h: u8) {{}}"
            )),
            expected
        );
    }

    #[test]
    fn what_is_counted() {
        let counted = |text: &str| {
            let source = Source::new("crates/a/src/lib.rt", text);
            count(source.code.iter().map(|token| token.text.as_str()))
        };
        assert_eq!(counted("fn f()"), 0);
        assert_eq!(counted("fn f(self)"), 0);
        assert_eq!(counted("fn f(&mut self, a: u8)"), 1);
        assert_eq!(
            counted("fn f<'a>(a: &'a [u8], b: (u8, A<u8, u8>)) -> (u8, u8)"),
            2
        );
        let generic = "fn f<F: Fn(u8, u8) -> u8>(a: F, b: impl Fn(u8) -> u8, c: u8) -> u8";
        assert_eq!(counted(generic), 3);
    }
}
