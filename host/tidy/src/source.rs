//! The files of the crates: what each brings in by `use`, and the words of its antt and of its code.

use crate::tokens::{antt, bare, in_code_name, Lexer, Token};
use std::path::{Path, PathBuf};
use std::{fs, io};

pub struct Source {
    /// From the repository's root, as `crates/merge/proofs/Turn.antt`.
    pub path: String,
    pub lines: Vec<String>,
    pub uses: Vec<Use>,
    /// Without the `use` lines. Of a file of code these are the clauses.
    pub antt: Vec<Token>,
    pub code: Vec<Token>,
}

/// `use PATH.{a, b as c}`, `use PATH`, `use PATH as name`, one of the code, or `open TERM use {a, b as c}`, which has no path.
pub struct Use {
    pub public: bool,
    pub code: bool,
    pub path: String,
    pub items: Vec<Item>,
    /// It brings in a module by itself, and not what is in it.
    pub module: bool,
}

/// What a `use` brings in: its name where it comes from, and its name here.
pub struct Item {
    pub line: usize,
    pub name: String,
    pub here: String,
}

/// Something that is not in order.
#[derive(Debug, PartialEq, Eq, PartialOrd, Ord)]
pub struct Finding {
    pub path: String,
    pub line: usize,
    pub what: String,
}

impl Source {
    pub fn new(path: &str, text: &str) -> Source {
        let mut source = Source {
            path: path.to_string(),
            lines: text.lines().map(str::to_string).collect(),
            uses: Vec::new(),
            antt: Vec::new(),
            code: Vec::new(),
        };
        match source.is_antt() {
            true => source.read_antt(&antt(text)),
            false => source.read_code(Lexer::new(text)),
        }
        source
    }

    /// It is one of `specs/` or `proofs/`.
    pub fn is_antt(&self) -> bool {
        self.path.ends_with(".antt")
    }

    /// The crate that the file is of.
    pub fn owner(&self) -> &str {
        self.path.split('/').nth(1).unwrap_or("")
    }

    /// The file's own name.
    pub fn name(&self) -> &str {
        self.path.rsplit('/').next().unwrap_or("")
    }

    pub fn finding(&self, line: usize, what: String) -> Finding {
        Finding {
            path: self.path.clone(),
            line,
            what,
        }
    }

    /// `use` is a reserved word of antt, so that each begins an import, or what an `open` brings in. A fixity line names nothing.
    fn read_antt(&mut self, mut tokens: &[Token]) {
        while let Some((token, rest)) = tokens.split_first() {
            let length = match token.text.as_str() {
                "use" => {
                    let length = antt_use_length(rest);
                    let public = self.antt.last().map_or(false, |last| last.text == "pub");
                    self.antt.truncate(self.antt.len() - usize::from(public));
                    self.uses.push(antt_use(public, &rest[..length]));
                    length
                }
                "infix" | "infixl" | "infixr" => {
                    let same_line = |other: &&Token| other.line == token.line;
                    rest.iter().take_while(same_line).count()
                }
                _ => {
                    self.antt.push(token.clone());
                    0
                }
            };
            tokens = &rest[length..];
        }
    }

    /// What stands in the braces of a clause or of a ghost member and behind `ghost use` is antt.
    fn read_code(&mut self, mut lexer: Lexer) {
        while let Some(token) = lexer.code() {
            let before = self.code.last().map(|last| last.text.as_str());
            match (token.text.as_str(), before) {
                ("{", _) if clause_head(&self.code) > 0 => {
                    let head = clause_head(&self.code);
                    self.code.truncate(self.code.len() - head);
                    let mut depth = 1;
                    let clause = std::iter::from_fn(|| lexer.antt()).take_while(|token| {
                        depth += i32::from(token.text == "{") - i32::from(token.text == "}");
                        depth > 0
                    });
                    self.antt.extend(clause);
                }
                ("use", Some("ghost")) => {
                    self.code.pop();
                    let tokens = until_semicolon(|| lexer.antt());
                    self.uses.push(antt_use(false, &tokens));
                }
                ("use", before) => {
                    let public = before == Some("pub");
                    let tokens = until_semicolon(|| lexer.code());
                    self.uses.push(code_use(public, &tokens));
                }
                _ => self.code.push(token),
            }
        }
    }
}

/// How many tokens ahead of a brace begin a clause or a ghost member: `ensures`, `requires* name`, `ghost name:` or `ghost name =`.
fn clause_head(code: &[Token]) -> usize {
    let back = code.iter().rev().take(4).map(|token| token.text.as_str());
    let words: Vec<&str> = back.collect();
    let head = words
        .iter()
        .position(|word| matches!(*word, "requires" | "ensures" | "ghost"));
    head.map_or(0, |head| {
        let named = words[..head]
            .iter()
            .filter(|word| !matches!(**word, "*" | ":" | "="));
        let names: Vec<&&str> = named.collect();
        let is_name = |word: &str| word.chars().all(in_code_name);
        match names.as_slice() {
            [] => head + 1,
            [name] if is_name(name) => head + 1,
            _ => 0,
        }
    })
}

/// The paths that stand in antt itself: a name with all that is named through it.
pub fn paths(tokens: &[Token]) -> impl Iterator<Item = String> + '_ {
    let goes_on = |token: &Token| token.text.len() > 1 && token.text.starts_with('.');
    let is_name = |text: &str| !text.starts_with(|c| "(){}.;,@\"".contains(c));
    let starts = (0..tokens.len()).filter(move |&at| is_name(&tokens[at].text));
    let whole = starts.map(move |at| {
        let behind = tokens[at + 1..].iter().take_while(|token| goes_on(token));
        let parts = std::iter::once(&tokens[at]).chain(behind);
        parts.map(|token| token.text.as_str()).collect::<String>()
    });
    whole.filter(|path| path.contains('.'))
}

fn until_semicolon(next: impl FnMut() -> Option<Token>) -> Vec<Token> {
    std::iter::from_fn(next)
        .take_while(|token| token.text != ";")
        .collect()
}

/// How many of the tokens behind a `use` are of it: up to the closing brace, or the path, with `as` and a name.
fn antt_use_length(tokens: &[Token]) -> usize {
    let mut depth = 0;
    let close = tokens.iter().position(|token| {
        depth += i32::from(token.text == "{") - i32::from(token.text == "}");
        token.text == "}" && depth == 0
    });
    let of_path = |(at, token): &(usize, &Token)| {
        token.text != "{" && (*at == 0 || token.text.starts_with('.'))
    };
    let path = tokens.iter().enumerate().take_while(of_path).count();
    let length = match tokens.get(path).map(|token| token.text.as_str()) {
        Some("{") => close.map_or(tokens.len(), |close| close + 1),
        Some("as") => path + 2,
        _ => path,
    };
    length.min(tokens.len())
}

fn antt_use(public: bool, tokens: &[Token]) -> Use {
    let open = tokens.iter().position(|token| token.text == "{");
    let path = &tokens[..open.unwrap_or(tokens.len())];
    let path: String = path
        .iter()
        .take_while(|token| token.text != "as")
        .map(|token| token.text.as_str())
        .collect();
    Use {
        public,
        code: false,
        path: path.trim_end_matches('.').to_string(),
        items: items(tokens),
        module: open.is_none(),
    }
}

fn code_use(public: bool, tokens: &[Token]) -> Use {
    Use {
        public,
        code: true,
        path: tokens.iter().map(|token| token.text.as_str()).collect(),
        items: items(tokens),
        module: false,
    }
}

/// The names within the braces, or the one at the end of the path. `self` within the braces brings in what the path ends in.
fn items(tokens: &[Token]) -> Vec<Item> {
    let open = tokens.iter().position(|token| token.text == "{");
    let path = &tokens[..open.unwrap_or(0)];
    let is_name = |token: &&Token| token.text.chars().all(in_code_name);
    let last = path.iter().rev().find(is_name);
    let listed = &tokens[open.map_or(0, |open| open + 1)..];
    let word = |token: &Token| bare(token.text.trim_start_matches('.')).to_string();
    listed
        .split(|token| token.text == "," || token.text == "}")
        .filter(|item| !item.is_empty() && item[0].text != "syntax")
        .map(|item| {
            let here = &item[item.len() - 1];
            let here = last.filter(|_| here.text == "self").unwrap_or(here);
            let name = match item.iter().position(|token| token.text == "as") {
                Some(renamed) => &item[renamed - 1],
                None => here,
            };
            Item {
                line: here.line,
                name: word(name),
                here: word(here),
            }
        })
        .collect()
}

/// The files of all crates, in the order of their paths.
pub fn read_all(root: &Path) -> io::Result<Vec<Source>> {
    let mut sources = Vec::new();
    for owner in listed(&root.join("crates"))? {
        for part in ["src", "specs", "proofs"] {
            let directory = owner.join(part);
            if directory.is_dir() {
                read_below(root, &directory, &mut sources)?;
            }
        }
    }
    Ok(sources)
}

fn read_below(root: &Path, directory: &Path, sources: &mut Vec<Source>) -> io::Result<()> {
    for path in listed(directory)? {
        let name = path.strip_prefix(root).unwrap_or(&path).to_string_lossy();
        if path.is_dir() {
            read_below(root, &path, sources)?;
        } else if name.ends_with(".rt") || name.ends_with(".antt") {
            sources.push(Source::new(&name, &fs::read_to_string(&path)?));
        }
    }
    Ok(())
}

fn listed(directory: &Path) -> io::Result<Vec<PathBuf>> {
    let entries: io::Result<Vec<_>> = fs::read_dir(directory)?.collect();
    let mut paths: Vec<PathBuf> = entries?.iter().map(fs::DirEntry::path).collect();
    paths.sort();
    Ok(paths)
}

#[cfg(test)]
mod tests {
    use super::*;

    fn words(tokens: &[Token]) -> String {
        let texts: Vec<&str> = tokens.iter().map(|token| token.text.as_str()).collect();
        texts.join(" ")
    }

    fn brought(source: &Source) -> Vec<(&str, &str, &str, usize)> {
        let mut brought = Vec::new();
        for Use { path, items, .. } in &source.uses {
            for Item { line, name, here } in items {
                brought.push((path.as_str(), name.as_str(), here.as_str(), *line));
            }
        }
        brought
    }

    #[test]
    fn uses_of_antt() {
        let text = "use a.B.{◌+◌, c as d,\n  N.e}\nuse a.F\nuse a.G as g\npub use a.H.{h}\ninfix 80 ◌h◌\nf : g.x\n";
        let source = Source::new("crates/a/proofs/B.antt", text);
        let expected = [
            ("a.B", "◌+◌", "◌+◌", 1),
            ("a.B", "c", "d", 1),
            ("a.B", "e", "e", 2),
            ("a.F", "F", "F", 3),
            ("a.G", "G", "g", 4),
            ("a.H", "h", "h", 5),
        ];
        assert_eq!(brought(&source), expected);
        let marks: Vec<_> = source.uses.iter().map(|u| (u.public, u.module)).collect();
        assert_eq!(
            marks,
            [(false, false), (false, true), (false, true), (true, false)]
        );
        assert_eq!(words(&source.antt), "f : g .x");
    }

    #[test]
    fn uses_and_clauses_of_code() {
        let text = "use a::B;\nghost use c.D.{e};\nfn f(x: u8)\n requires { g {A = x.now} }\n ensures all { j }\n{ a::h(x) }\n";
        let source = Source::new("crates/a/src/lib.rt", text);
        assert_eq!(
            brought(&source),
            [("a::B", "B", "B", 1), ("c.D", "e", "e", 2)]
        );
        assert_eq!(words(&source.antt), "g { A = x .now } j");
        assert_eq!(words(&source.code), "fn f ( x : u8 ) { a : : h ( x ) }");
    }

    #[test]
    fn ghost_members_and_starred_clauses() {
        let text = "struct S { x: u8, ghost low: { x < a }, }\nimpl Model for S { ghost use c.D.{e}; ghost view = { b }; }\nfn f()\n ghost top: { c }\n requires* { d }\n ensures* all { e }\n{ g() }\n";
        let source = Source::new("crates/a/src/lib.rt", text);
        assert_eq!(brought(&source), [("c.D", "e", "e", 2)]);
        assert_eq!(words(&source.antt), "x < a b c d e");
        let code = "struct S { x : u8 , , } impl Model for S { ; } fn f ( ) { g ( ) }";
        assert_eq!(words(&source.code), code);
    }

    #[test]
    fn opened_fields() {
        let text = "f : a\nf = c\n  where\n  open b.d use {c, g.{h as k}}\n  use a.B.{c}\n";
        let source = Source::new("crates/a/proofs/B.antt", text);
        let expected = [("", "c", "c", 4), ("", "h", "k", 4), ("a.B", "c", "c", 5)];
        assert_eq!(brought(&source), expected);
        assert_eq!(words(&source.antt), "f : a f = c where open b .d");
    }

    #[test]
    fn paths_in_antt() {
        let tokens = antt("f x = Rattle.e.specs.E.z x (g c.now).h");
        let found: Vec<String> = paths(&tokens).collect();
        assert_eq!(found, ["Rattle.e.specs.E.z", "c.now"]);
    }

    #[test]
    fn whose_a_file_is() {
        let source = Source::new("crates/merge/proofs/rise/Answers.antt", "");
        assert_eq!((source.owner(), source.name()), ("merge", "Answers.antt"));
    }
}
