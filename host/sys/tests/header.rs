//! Every declaration of the crate against the header: the same constants, structs, functions and sizes, and no others.

use std::mem::size_of;

use onion_sys::*;

const HEADER: &str = include_str!("../../../include/onion.h");
const CRATE: &str = include_str!("../src/lib.rs");

/// The header without comments and without the preprocessor's lines.
fn header() -> String {
    let mut text = String::new();
    for part in HEADER.split("/*") {
        text += part.rsplit("*/").next().unwrap_or_default();
    }
    let lines = text.lines().filter(|line| !line.starts_with('#'));
    lines.collect::<Vec<_>>().join("\n")
}

/// A text without white space and without commas ahead of a closing bracket, as two ways to lay it out have in common.
fn plain(text: &str) -> String {
    let text: String = text.split_whitespace().collect();
    text.replace(",)", ")").replace(",}", "}")
}

/// The crate's source as such a text, without comments.
fn source() -> String {
    let lines = CRATE.lines().filter(|line| !line.starts_with("//"));
    plain(&lines.collect::<Vec<_>>().join("\n"))
}

/// A type of C and the name behind it, as Rust has them: `const uint8_t *bytes` is `bytes: *const u8`.
fn declared(c: &str) -> (String, String) {
    if let Some((element, count)) = c.trim_end_matches(']').split_once('[') {
        let (name, kind) = declared(element);
        return (name, format!("[{kind}; {count}]"));
    }
    let end = c
        .rfind([' ', '*'])
        .unwrap_or_else(|| panic!("no type: {c}"));
    let kind = match c[..=end].trim() {
        "bool" => "bool",
        "size_t" => "usize",
        "uint32_t" => "u32",
        "uint64_t" => "u64",
        "uint8_t *" => "*mut u8",
        "const uint8_t *" => "*const u8",
        "const char *" => "*const c_char",
        own if own.starts_with("onion_") => own,
        other => panic!("unknown type {other}"),
    };
    (c[end + 1..].to_string(), kind.to_string())
}

fn field(c: &str) -> String {
    let (name, kind) = declared(c);
    format!("{name}: {kind}")
}

/// Pieces of C between the separators, each on one line.
fn pieces(text: &str, separator: char) -> Vec<String> {
    text.split(separator)
        .map(|piece| piece.split_whitespace().collect::<Vec<_>>().join(" "))
        .filter(|piece| !piece.is_empty())
        .collect()
}

/// The crate has these declarations, and no other that begins so.
fn same(what: &str, expected: &[String]) {
    let source = source();
    for declaration in expected {
        assert!(source.contains(&plain(declaration)), "{declaration}");
    }
    assert_eq!(source.matches(&plain(what)).count(), expected.len());
    assert!(!expected.is_empty());
}

#[test]
fn structs() {
    let header = header();
    let mut expected = Vec::new();
    for text in header.split("typedef struct ").skip(1) {
        let (name, rest) = text.split_once('{').unwrap();
        let fields: Vec<String> = pieces(rest.split_once('}').unwrap().0, ';')
            .iter()
            .map(|c| format!("pub {}", field(c)))
            .collect();
        expected.push(format!("pub struct {name} {{ {} }}", fields.join(", ")));
    }
    same("pub struct", &expected);
    assert_eq!(source().matches("#[repr(C)]").count(), expected.len());
}

#[test]
fn functions() {
    let mut expected = Vec::new();
    for statement in pieces(&header(), ';') {
        let (answer, parameters) = match statement.split_once('(') {
            Some((answer, rest)) if answer.contains(' ') => (answer, rest.trim_end_matches(')')),
            _ => continue,
        };
        let (name, kind) = declared(answer);
        let parameters: Vec<String> = match parameters {
            "void" => Vec::new(),
            _ => pieces(parameters, ',').iter().map(|c| field(c)).collect(),
        };
        let parameters = parameters.join(", ");
        expected.push(format!("pub fn {name}({parameters}) -> {kind};"));
    }
    same("pub fn", &expected);
}

#[test]
fn constants() {
    let defined = HEADER
        .lines()
        .filter_map(|line| line.strip_prefix("#define ")?.split_once(' '))
        .filter(|(name, _)| !name.contains('('));
    let header = header();
    let numbers = header.split("enum onion_refusal {").nth(1).unwrap();
    let numbers = pieces(numbers.split_once('}').unwrap().0, ',');
    let numbers = numbers.iter().map(|line| line.split_once(" = ").unwrap());
    let expected: Vec<(&str, &str)> = defined.chain(numbers).collect();

    let source = source();
    for (name, value) in &expected {
        // Which of Rust's types a number has is not the header's to say.
        let value = match *value {
            "UINT64_MAX" => "u64::MAX".to_string(),
            _ => plain(value)
                .replace("(uint32_t)", "")
                .replace(['(', ')'], ""),
        };
        let start = format!("pubconst{name}:");
        let declaration = source
            .split(&start)
            .nth(1)
            .unwrap_or_else(|| panic!("{name}"));
        let declaration = declaration.split(';').next().unwrap_or_default();
        assert!(
            declaration.ends_with(&format!("={value}")),
            "{name}: {declaration}"
        );
    }
    assert_eq!(source.matches("pubconst").count(), expected.len());
    assert!(!expected.is_empty());
}

#[test]
fn sizes() {
    let expected: Vec<(String, usize)> = pieces(&header(), ';')
        .iter()
        .filter_map(|statement| statement.strip_prefix("ONION_SIZE_IS(")?.strip_suffix(')'))
        .map(|both| both.split_once(", ").unwrap())
        .map(|(name, size)| (name.to_string(), size.parse().unwrap()))
        .collect();
    macro_rules! sizes {
        ($($name:ident)*) => { vec![$((stringify!($name).to_string(), size_of::<$name>())),*] };
    }
    let sizes = sizes! {
        onion_session onion_answer onion_found onion_checked onion_browsed onion_step
        onion_part onion_setting onion_record
    };
    assert_eq!(sizes, expected);
}
