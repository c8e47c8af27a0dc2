//! The header, the declarations of this package and README's C example agree.

use std::collections::BTreeMap;

const HEADER: &str = include_str!("../../include/shoalswift.h");
const DECLARED: &str = include_str!("../src/declared.rs");
const EXAMPLE: &str = include_str!("../../include/example.c");
const README: &str = include_str!("../../README.md");

/// Functions by name: the text between the parentheses, cut at commas.
type Functions = BTreeMap<String, Vec<String>>;

/// Every function whose name follows `before`.
fn functions(text: &str, before: &str) -> Functions {
    let mut found = Functions::new();
    for part in text.split(before).skip(1) {
        let Some((name, rest)) = part.split_once('(') else {
            continue;
        };
        let (inside, _) = rest.split_once(')').expect("it is closed");
        let parameters = inside.split(',').map(|one| one.trim().to_string());
        let parameters = parameters.filter(|one| !one.is_empty()).collect();
        found.insert(name.trim().to_string(), parameters);
    }
    found
}

/// A parameter of the header, as it must be declared in Rust.
fn in_rust(parameter: &str) -> String {
    let at = parameter.rfind([' ', '*']).expect("a type and a name") + 1;
    let (kind, name) = (parameter[..at].trim(), &parameter[at..]);
    let kind = match kind {
        "uint8_t" => "u8",
        "uint32_t" => "u32",
        "uint64_t" => "u64",
        "size_t" => "usize",
        "uint8_t *" => "*mut u8",
        "uint32_t *" => "*mut u32",
        "uint64_t *" => "*mut u64",
        "const uint8_t *" => "*const u8",
        "const uint32_t *" => "*const u32",
        other => panic!("{other} has no type of Rust here"),
    };
    format!("{name}: {kind}")
}

#[test]
fn the_declarations_are_the_header_s() {
    let mut header = functions(HEADER, "\nuint32_t ");
    for parameters in header.values_mut() {
        *parameters = parameters.iter().map(|one| in_rust(one)).collect();
    }
    assert_eq!(header.len(), 17);
    assert_eq!(header, functions(DECLARED, "pub fn "));
    // Each answers the refusal's number.
    assert_eq!(DECLARED.matches(") -> u32;").count(), header.len());
}

/// What the header defines a name as.
fn defined(name: &str) -> &'static str {
    let line = format!("#define {name} ");
    let rest = HEADER.split(line.as_str()).nth(1).expect("it is defined");
    rest.lines().next().unwrap_or_default()
}

#[test]
fn the_header_tells_this_version() {
    let parts = ["MAJOR", "MINOR", "PATCH"];
    let numbers = parts.map(|part| defined(&format!("SHOALSWIFT_VERSION_{part}")));
    assert_eq!(numbers.join("."), env!("CARGO_PKG_VERSION"));
    let text = format!("\"{}\"", env!("CARGO_PKG_VERSION"));
    assert_eq!(defined("SHOALSWIFT_VERSION"), text);
}

#[test]
fn the_readme_shows_the_c_example() {
    let indent = |line: &str| match line {
        "" => "\n".to_string(),
        line => format!("    {line}\n"),
    };
    let shown: String = EXAMPLE.lines().map(indent).collect();
    assert!(README.contains(&shown));
}
