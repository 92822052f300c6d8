//! The definitions of an antt file, found by its layout.

use crate::tokens::{bare, Token};
use std::ops::Range;

#[derive(Debug, PartialEq, Eq)]
pub struct Definition {
    pub name: String,
    pub public: bool,
    pub line: usize,
    /// The tokens of its signature and its clauses.
    pub own: Range<usize>,
    /// The tokens that can name it: the file's, or for one behind `where` those of the clause.
    pub scope: Range<usize>,
}

/// All definitions: those of the file, of its `module` and `mutual` blocks and behind `where`. The fields of a record are none.
pub fn definitions(tokens: &[Token]) -> Vec<Definition> {
    let mut found = Vec::new();
    if !tokens.is_empty() {
        block(tokens, 0..tokens.len(), &(0..tokens.len()), &mut found);
    }
    found
}

/// What follows a signature up to the next one is of its definition.
fn block(
    tokens: &[Token],
    within: Range<usize>,
    scope: &Range<usize>,
    found: &mut Vec<Definition>,
) {
    let text = |at: usize| tokens.get(at).map_or("", |token| token.text.as_str());
    let mut open = None;
    for item in items(tokens, within) {
        let head = item.clone().find(|&at| !is_modifier(text(at)));
        let head = head.unwrap_or(item.start);
        let body = item.clone().find(|&at| text(at) == "where");
        let body = body
            .map(|at| at + 1..item.end)
            .filter(|body| !body.is_empty());
        let name = match text(head) {
            "record" | "data" | "ruleset" => head + 1,
            _ => head,
        };
        if text(head) == "module" {
            open = None;
            if let Some(body) = body {
                block(tokens, body, scope, found);
            }
        } else if text(head) == "mutual" {
            open = None;
            if head + 1 < item.end {
                block(tokens, head + 1..item.end, scope, found);
            }
        } else if name > head || is_signature(&tokens[head..item.end]) {
            open = Some(found.len());
            found.push(Definition {
                name: bare(text(name)).to_string(),
                public: (item.start..head).any(|at| text(at) == "pub"),
                line: tokens[item.start].line,
                own: item,
                scope: scope.clone(),
            });
        } else {
            if let Some(open) = open {
                found[open].own.end = item.end;
            }
            if let Some(body) = body {
                block(tokens, body, &item, found);
            }
        }
    }
}

fn is_modifier(word: &str) -> bool {
    matches!(word, "pattern" | "unfoldable" | "abbrev" | "axiom" | "pub")
}

/// A name with a colon behind it, or first the levels that it takes, as in `f {ℓ κ} : A`.
fn is_signature(item: &[Token]) -> bool {
    let text = |at: usize| item.get(at).map_or("", |token| token.text.as_str());
    let levels = item.iter().take_while(|token| token.text != "}").count();
    text(1) == ":" || text(1) == "{" && text(levels + 1) == ":"
}

/// The items of a block: each begins in the column in which the block begins. A bracket there closes what was opened before.
fn items(tokens: &[Token], within: Range<usize>) -> Vec<Range<usize>> {
    let column = tokens[within.start].column;
    let begins = |at: &usize| {
        let token = &tokens[*at];
        token.first && token.column <= column && token.text != "}" && token.text != ")"
    };
    let mut starts: Vec<usize> = (within.start + 1..within.end).filter(begins).collect();
    starts.insert(0, within.start);
    let ends = starts[1..].iter().copied().chain([within.end]);
    starts
        .iter()
        .copied()
        .zip(ends)
        .map(|(start, end)| start..end)
        .collect()
}

#[cfg(test)]
mod tests {
    use super::*;
    use crate::tokens::antt;

    const TEXT: &str = "\
abbrev pub two : ℕ
two = 2

pub record R : Type 0 where
  pub field : ℕ

module _ (x : ℕ)
    (y : ℕ) where
  unfoldable law : R
  unfolding two
  law = record {
    field = helper;
  }
    where
      helper : ℕ
      helper = x

  pub last : ℕ
  last = y

-- Of other forms.
mutual
  even {ℓ} : Type ℓ
  even {x = a} = odd

  pub odd : ℕ
  odd = even

pub ruleset laws = (last, law)
";

    #[test]
    fn names_and_lines() {
        let found = definitions(&antt(TEXT));
        let seen: Vec<_> = found
            .iter()
            .map(|d| (d.name.as_str(), d.public, d.line))
            .collect();
        let expected = [
            ("two", true, 1),
            ("R", true, 4),
            ("law", false, 9),
            ("helper", false, 15),
            ("last", true, 18),
            ("even", false, 23),
            ("odd", true, 26),
            ("laws", true, 29),
        ];
        assert_eq!(seen, expected);
    }

    #[test]
    fn own_tokens_and_scope() {
        let tokens = antt(TEXT);
        let found = definitions(&tokens);
        let lines = |range: &Range<usize>| (tokens[range.start].line, tokens[range.end - 1].line);
        let seen: Vec<_> = found
            .iter()
            .map(|d| (lines(&d.own), lines(&d.scope)))
            .collect();
        let file = (1, 29);
        let expected = [
            ((1, 2), file),
            ((4, 5), file),
            ((9, 16), file),
            ((15, 16), (11, 16)),
            ((18, 19), file),
            ((23, 24), file),
            ((26, 27), file),
            ((29, 29), file),
        ];
        assert_eq!(seen, expected);
    }
}
