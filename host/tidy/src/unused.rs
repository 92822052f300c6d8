//! Laws and definitions that nothing names.

use crate::definitions::{definitions, Definition};
use crate::names::{named, names};
use crate::source::{paths, Finding, Source};
use std::collections::HashSet;

/// What is stated for its own sake: the files that hold such statements, and how the names of those end.
const STATED: [(&str, &str); 3] = [
    // The function's contract, which Rattle asks for where the whole proof is written out.
    ("Proof.antt", "_spec"),
    ("Determined.antt", "determined"),
    ("Examples.antt", "_hold"),
];

/// The files of what Rattle asks for by name, and the module that states it for each function.
const ASKED: [(&str, &str); 2] = [("Answers.antt", "Goals"), ("Invariants.antt", "Given")];

/// Any other statement of this kind has a comment above it that begins so.
const COMMENT: &str = "-- Stands for itself: ";

pub fn check(sources: &[Source]) -> Vec<Finding> {
    let brought: HashSet<(String, String)> = sources.iter().flat_map(brought_by).collect();
    let mut findings = Vec::new();
    for source in sources.iter().filter(|source| source.is_antt()) {
        let words: Vec<(usize, &str)> = names(&source.antt).collect();
        let module = module_of_file(&source.path);
        for definition in definitions(&source.antt) {
            let Definition {
                name, own, scope, ..
            } = &definition;
            let outside = |at: &usize| scope.contains(at) && !own.contains(at);
            let here = words
                .iter()
                .filter(|(at, _)| outside(at))
                .map(|(_, word)| *word);
            let elsewhere = (module.to_string(), name.clone());
            let kept = named(name, here)
                || definition.public && brought.contains(&elsewhere)
                || definition.public && is_asked(source, &definition)
                || stands_for_itself(source, &definition);
            if !kept {
                findings.push(source.finding(definition.line, format!("nothing names `{name}`")));
            }
        }
    }
    findings
}

fn stands_for_itself(source: &Source, definition: &Definition) -> bool {
    let stated =
        |(file, ending): &(&str, &str)| source.name() == *file && definition.name.ends_with(ending);
    let above = source.lines[..definition.line - 1].iter().rev();
    let mut comment = above
        .map(|line| line.trim_start())
        .take_while(|line| line.starts_with("--"));
    definition.public && STATED.iter().any(stated) || comment.any(|line| line.starts_with(COMMENT))
}

/// Whether it is an answer, an invariant or a measure: its type is what the function's `Goals` or `Given` states under its name.
fn is_asked(source: &Source, definition: &Definition) -> bool {
    let own = &source.antt[definition.own.clone()];
    let of_type = own.iter().skip_while(|token| token.text != ":").skip(1);
    let of_type: Vec<&str> = of_type.take(2).map(|token| token.text.as_str()).collect();
    let brings = |module: &str, stated: &str| {
        let mut modules = source.uses.iter().filter(|u| u.module);
        modules.any(|u| {
            u.path.rsplit('.').next() == Some(stated)
                && u.items.iter().any(|item| item.here == module)
        })
    };
    match of_type.as_slice() {
        [module, field] => ASKED.iter().any(|(file, stated)| {
            source.name() == *file
                && brings(module, stated)
                && field.strip_prefix('.') == Some(&definition.name)
        }),
        _ => false,
    }
}

/// The names that a file brings in or writes behind a module's name, each with its module.
fn brought_by(source: &Source) -> Vec<(String, String)> {
    let mut brought = Vec::new();
    for import in source.uses.iter().filter(|import| !import.code) {
        let module = module_of_path(&import.path);
        for item in &import.items {
            if import.module {
                let behind = source
                    .antt
                    .windows(2)
                    .filter(|two| two[0].text == item.here);
                let fields = behind.filter_map(|two| two[1].text.strip_prefix('.'));
                brought.extend(fields.map(|name| (module.clone(), name.to_string())));
            } else {
                brought.push((module.clone(), item.name.clone()));
            }
        }
    }
    // Behind the name may stand those of fields.
    for path in paths(&source.antt).filter(|path| path.starts_with("Rattle.")) {
        for (dot, _) in path.match_indices('.') {
            let name = path[dot + 1..].split('.').next().unwrap_or("");
            brought.push((module_of_path(&path[..dot]), name.to_string()));
        }
    }
    brought.extend(hinted(source));
    brought
}

/// The lemmas and definitions that the code gives the tactics, as `using(crate::proofs::Turn::rise)`.
fn hinted(source: &Source) -> Vec<(String, String)> {
    let text = |at: usize| source.code.get(at).map_or("", |token| token.text.as_str());
    let goes_on = |at: usize| text(at) == ":" && text(at + 1) == ":";
    let mut found = Vec::new();
    for start in 0..source.code.len() {
        if !goes_on(start + 1) || !matches!(text(start + 3), "proofs" | "specs") {
            continue;
        }
        let owner = match text(start) {
            "crate" => source.owner(),
            other => other,
        };
        let mut parts = vec![owner];
        let mut at = start;
        while goes_on(at + 1) {
            at += 3;
            parts.push(text(at));
        }
        let name = parts.pop().unwrap_or("");
        found.push((parts.join("/"), name.to_string()));
    }
    found
}

/// `Rattle.merge.proofs.Turn` is `merge/proofs/Turn`.
fn module_of_path(path: &str) -> String {
    path.trim_start_matches("Rattle.").replace('.', "/")
}

/// So is the file `crates/merge/proofs/Turn.antt`.
fn module_of_file(path: &str) -> &str {
    path.trim_start_matches("crates/").trim_end_matches(".antt")
}

#[cfg(test)]
mod tests {
    use super::*;

    fn found(files: &[(&str, &str)]) -> Vec<(String, usize, String)> {
        let sources: Vec<Source> = files
            .iter()
            .map(|(path, text)| Source::new(path, text))
            .collect();
        let one = |finding: Finding| (finding.path, finding.line, finding.what);
        check(&sources).into_iter().map(one).collect()
    }

    fn unused(path: &str, line: usize, name: &str) -> (String, usize, String) {
        (path.to_string(), line, format!("nothing names `{name}`"))
    }

    const A: &str = "crates/a/proofs/A.antt";
    const B: &str = "crates/b/proofs/B.antt";

    #[test]
    fn in_its_own_file() {
        let text =
            "f : ℕ → ℕ\nf x = f x\n\ng : ℕ\ng = h .f\n\nmodule _ (x : ℕ) where\n  h : ℕ\n  h = g\n";
        assert_eq!(found(&[(A, text)]), [unused(A, 1, "f")]);
    }

    #[test]
    fn behind_where() {
        let text =
            "pub x_spec : ℕ\nx_spec = a\n  where\n    a : ℕ\n    a = 1\n    b : ℕ\n    b = a\n";
        let path = "crates/a/proofs/x/Proof.antt";
        assert_eq!(found(&[(path, text)]), [unused(path, 6, "b")]);
    }

    #[test]
    fn from_another_file() {
        let text = "pub f : ℕ\nf = 1\n\npub g : ℕ\ng = 1\n\npub h : ℕ\nh = 1\n";
        let naming = "use Rattle.a.proofs.A.{f}\nuse Rattle.a.proofs.A as x\nuse Rattle.c.proofs.A.{g}\n-- Stands for itself: a test.\ny : ℕ\ny = x.h g\n";
        assert_eq!(found(&[(A, text), (B, naming)]), [unused(A, 4, "g")]);
        let naming = "-- Stands for itself: a test.\ny : ℕ\ny = Rattle.a.proofs.A.f.x Rattle.a.proofs.A.g Rattle.a.specs.A.h\n";
        assert_eq!(found(&[(A, text), (B, naming)]), [unused(A, 7, "h")]);
    }

    #[test]
    fn what_rattle_asks_for() {
        let text = "use Rattle.a.proofs.f.Goals as goal\nuse Rattle.a.proofs.f.Other as other\npub x-y : goal.x-y\nx-y c = z\n\npub x : goal.x-y\nx c = z\n\nz : goal.z\nz = z\n\npub w : other.w\nw = z\n";
        let path = "crates/a/proofs/f/Answers.antt";
        let names = [unused(path, 6, "x"), unused(path, 12, "w")];
        assert_eq!(found(&[(path, text)]), names);
        let elsewhere = "crates/a/proofs/f/Invariants.antt";
        assert_eq!(found(&[(elsewhere, text)]).len(), 3);
        let given = "use Rattle.a.proofs.f.Given as goal\nabbrev pub x-y : goal.x-y\nx-y l = 1\n";
        assert_eq!(found(&[(elsewhere, given)]), []);
        assert_eq!(found(&[(A, given)]), [unused(A, 2, "x-y")]);
    }

    #[test]
    fn from_a_hint_to_the_tactics() {
        let code = "#[tactic(auto, using(crate::proofs::A::f, b::proofs::B::f))]\nfn h() { crate::a::g() }\n";
        let text = "pub f : ℕ\nf = 1\n\npub g : ℕ\ng = 1\n";
        let files = [("crates/a/src/lib.rt", code), (A, text), (B, text)];
        assert_eq!(found(&files), [unused(A, 4, "g"), unused(B, 4, "g")]);
    }

    #[test]
    fn not_public() {
        let naming = "use Rattle.a.proofs.A.{f}\n";
        assert_eq!(
            found(&[(A, "f : ℕ\nf = 1\n"), (B, naming)]),
            [unused(A, 1, "f")]
        );
    }

    #[test]
    fn from_a_clause() {
        let code = "ghost use Rattle.a.specs.S.{f};\nfn g() {}\n";
        let path = "crates/a/specs/S.antt";
        let text = "pub f : ℕ\nf = 1\n\npub g : ℕ\ng = 1\n";
        assert_eq!(
            found(&[("crates/a/src/lib.rt", code), (path, text)]),
            [unused(path, 4, "g")]
        );
    }

    #[test]
    fn stated_for_its_own_sake() {
        let text = "pub x-determined : ℕ\nx-determined = 1\n\n-- Stands for itself: a law.\n-- More of it.\nf : ℕ\nf = 1\n\n-- A law.\ng : ℕ\ng = 1\n";
        let path = "crates/a/proofs/Determined.antt";
        assert_eq!(found(&[(path, text)]), [unused(path, 10, "g")]);
        assert_eq!(
            found(&[(A, text)]),
            [unused(A, 1, "x-determined"), unused(A, 10, "g")]
        );
    }
}
