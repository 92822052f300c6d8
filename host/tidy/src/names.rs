//! Where a name is written so that it means something in scope.

use crate::tokens::{bare, Token};

/// The words of some tokens that name something. A field, a label as in `record { a = b }` or `record { a : B }` and a name that is declared
/// name nothing.
pub fn names(tokens: &[Token]) -> impl Iterator<Item = (usize, &str)> {
    let text = |at: usize| tokens.get(at).map_or("", |token| token.text.as_str());
    let labels = move |at: usize| {
        let inside = at > 0 && matches!(text(at - 1), "{" | ";");
        inside && matches!(text(at + 1), "=" | ":")
    };
    let declared = move |at: usize| {
        (tokens[at].first || at > 0 && text(at - 1) == "pub") && text(at + 1) == ":"
    };
    (0..tokens.len())
        .filter(move |&at| !labels(at) && !declared(at))
        .map(move |at| (at, bare(text(at))))
}

/// Whether a name is among some words. An operator such as `◌+◌` is also written as its parts, `a + b` or `(◌+ b)`.
pub fn named<'a>(name: &str, words: impl Iterator<Item = &'a str> + Clone) -> bool {
    let written = |part: &str| words.clone().any(|word| word.trim_matches('◌') == part);
    let mut parts = name.split('◌').filter(|part| !part.is_empty());
    words.clone().any(|word| word == name) || name.contains('◌') && parts.all(written)
}

#[cfg(test)]
mod tests {
    use super::*;
    use crate::tokens::antt;

    fn is_named(name: &str, text: &str) -> bool {
        let tokens = antt(text);
        let found: Vec<&str> = names(&tokens).map(|(_, word)| word).collect();
        named(name, found.iter().copied())
    }

    #[test]
    fn plain_names() {
        assert!(is_named("a", "f (a b)"));
        assert!(!is_named("a", "f a-b"));
        assert!(!is_named("a", "f x .a"));
        assert!(!is_named("a", "m.a"));
        assert!(is_named("data", "f «data».now"));
        assert!(!is_named("max_len", "max len"));
    }

    #[test]
    fn operators() {
        for text in ["a + b", "f ◌+◌", "(◌+ b)", "(a +◌)"] {
            assert!(is_named("◌+◌", text), "{text}");
        }
        assert!(!is_named("◌+◌", "a ++ b"));
        assert!(is_named("if◌then◌else◌", "if a then b else c"));
        assert!(!is_named("if◌then◌else◌", "if a then b"));
    }

    #[test]
    fn labels_and_declarations() {
        assert!(!is_named("a", "record { a = b; c = d }"));
        assert!(!is_named("c", "record { a = b; c = d }"));
        assert!(is_named("b", "record { a = b; c = d }"));
        assert!(!is_named("a", "f : record { a : b; c : d } → e"));
        assert!(is_named("d", "f : record { a : b; c : d } → e"));
        assert!(!is_named("a", "record R where\n  a : b\n  pub c : b"));
        assert!(!is_named("c", "record R where\n  a : b\n  pub c : b"));
    }
}
