//! One vocabulary: refusals, limits and needs have the same names and numbers
//! in the source, in the header, in the binding and in the second program. Each
//! is read as text, so that none is left out.

use reference::classes;
use reference::code::Code;
use reference::operations::{VERDICT_ENTRIES, VERDICT_WORKING};
use reference::split::MAX_TEXT_BYTES;
use std::fs;
use std::path::Path;

const HEADER: &str = include_str!("../../../include/furlazon.h");
const BINDING: &str = include_str!("../binding/src/lib.rs");
const PYTHON: &str = include_str!("../examples/verdict.py");
const SECOND: &str = include_str!("../../src/code.rs");
const CODE: &str = include_str!("../../../crates/code/src/lib.rt");
const C_IMAGE: &str = include_str!("../../../crates/c_image/src/lib.rt");
const C_ANSWERS: &str = include_str!("../../../crates/c_answers/src/lib.rt");

/// Names with their numbers, in the order of the text.
type Numbers = Vec<(String, u64)>;

fn number(text: &str) -> Option<u64> {
    text.replace('_', "").parse().ok()
}

/// A name of the header for one of the source: `SHEET_LENGTH` for `SheetLength`.
fn capitals(name: &str) -> String {
    let mut written = String::new();
    for letter in name.chars() {
        if letter.is_uppercase() && !written.is_empty() {
            written.push('_');
        }
        written.push(letter.to_ascii_uppercase());
    }
    written
}

/// The lines between the braces that follow these words.
fn block<'a>(text: &'a str, opening: &str) -> impl Iterator<Item = &'a str> {
    let (_, rest) = text.split_once(&format!("\n{opening} {{\n")).unwrap_or_else(|| panic!("no {opening}"));
    let (lines, _) = rest.split_once("\n}").expect("an end");
    lines.lines().map(str::trim)
}

/// The macros of the header without an argument that have a number.
fn header_numbers() -> Numbers {
    HEADER
        .lines()
        .filter_map(|line| {
            let mut fields = line.strip_prefix("#define FURLAZON_")?.split_whitespace();
            Some((fields.next()?.to_string(), number(fields.next()?)?))
        })
        .filter(|(name, _)| !name.starts_with("VERSION_"))
        .collect()
}

/// The constants of the binding that have a number.
fn binding_numbers() -> Numbers {
    BINDING
        .lines()
        .filter_map(|line| {
            let (name, value) = line.strip_prefix("pub const ")?.split_once(" = ")?;
            Some((name.split_once(':')?.0.to_string(), number(value.strip_suffix(';')?)?))
        })
        .collect()
}

/// Those that are refusals, without the word that all of them have.
fn refusals(numbers: Numbers) -> Numbers {
    let without = |(name, number): (String, u64)| Some((name.strip_prefix("REFUSED_")?.to_string(), number));
    numbers.into_iter().filter_map(without).collect()
}

#[test]
fn refusals_have_one_name() {
    let numbered = |text| -> Numbers {
        let refusal = |line: &str| {
            let (name, value) = line.trim_end_matches(',').split_once(" = ").expect("a refusal without a number");
            (capitals(name), number(value).expect("a number"))
        };
        block(text, "pub enum Refusal").map(refusal).collect()
    };
    let source = numbered(CODE);
    assert_eq!(
        source.iter().map(|refusal| refusal.1).collect::<Vec<_>>(),
        (1..=source.len() as u64).collect::<Vec<_>>()
    );
    assert_eq!(refusals(header_numbers()), source, "header");
    assert_eq!(refusals(binding_numbers()), source, "binding");
    assert_eq!(numbered(SECOND), source, "second program");
}

#[test]
fn the_binding_has_the_numbers_of_the_header() {
    let header = header_numbers();
    assert_eq!(binding_numbers(), header);
    // Every macro is one of these, of the version, of the needs below, or the guard.
    let macros = HEADER.lines().filter(|line| line.starts_with("#define ")).count();
    assert_eq!(macros, header.len() + 4 + needs_of_the_header().len() + 1);
}

/// The example in Python has those that it needs.
#[test]
fn the_python_example_has_numbers_of_the_header() {
    let assigned = |line: &str| {
        let (name, value) = line.split_once(" = ")?;
        Some((name.to_string(), number(value)?))
    };
    let (header, python) = (header_numbers(), PYTHON.lines().filter_map(assigned).collect::<Numbers>());
    assert_eq!(python.len(), 9);
    for constant in python {
        assert!(header.contains(&constant), "{constant:?}");
    }
}

/// The needs of the header that depend on a length n, each as it is worked out.
fn needs_of_the_header() -> Vec<(String, String)> {
    HEADER
        .lines()
        .filter_map(|line| {
            let (name, need) = line.strip_prefix("#define FURLAZON_")?.split_once("(n) (")?;
            Some((name.to_lowercase(), need.strip_suffix(')')?.replace("(n)", "n")))
        })
        .collect()
}

#[test]
fn the_binding_has_the_needs_of_the_header() {
    let mut lines = BINDING.lines();
    let mut needs = Vec::new();
    while let Some(line) = lines.next() {
        if let Some(name) = line.strip_prefix("pub const fn ") {
            let name = name.strip_suffix("(n: usize) -> usize {").expect("a length for a length");
            needs.push((name.to_string(), lines.next().expect("a value").trim().to_string()));
        }
    }
    assert_eq!(needs, needs_of_the_header());
    assert_eq!(needs.len(), 5);
}

/// The associated constants of a source and what each is written as, by type and name.
fn constants(source: &str) -> Vec<(String, &str)> {
    let mut constants = Vec::new();
    let mut owner = "";
    for line in source.lines() {
        if let Some(name) = line.strip_prefix("impl ") {
            owner = name.trim_end_matches(" {");
        }
        if let Some((name, value)) = line.trim().strip_prefix("pub const ").and_then(|line| line.split_once(" = ")) {
            let name = name.split_once(':').expect("a type").0;
            constants.push((format!("{owner}::{name}"), value.trim_end_matches(';')));
        }
    }
    constants
}

/// The value of numbers and constants that are shifted, added or multiplied, with brackets.
fn value(constants: &[(String, &str)], text: &str) -> u64 {
    let of = |text: &str| value(constants, text);
    if let Some((left, right)) = parted(text, " >> ") {
        return of(left) >> of(right);
    }
    if let Some((left, right)) = parted(text, " + ") {
        return of(left) + of(right);
    }
    if let Some((left, right)) = parted(text, " * ") {
        return of(left) * of(right);
    }
    if let Some(inner) = text.strip_prefix('(').and_then(|text| text.strip_suffix(')')) {
        return of(inner);
    }
    let named = || constants.iter().find(|constant| constant.0 == text).map(|constant| of(constant.1));
    number(text).or_else(named).unwrap_or_else(|| panic!("{text} is no number"))
}

/// The two sides of an operator that stands outside brackets, if there is one.
fn parted<'a>(text: &'a str, operator: &str) -> Option<(&'a str, &'a str)> {
    let outside = |at: usize| text[..at].matches('(').count() == text[..at].matches(')').count();
    let at = text.match_indices(operator).map(|(at, _)| at).find(|&at| outside(at))?;
    Some((&text[..at], &text[at + operator.len()..]))
}

#[test]
fn limits_of_the_source() {
    let limits = constants(CODE);
    let all = [limits.clone(), constants(C_IMAGE), constants(C_ANSWERS)].concat();
    let names = [
        ("ALPHABET", "Word::ALPHABET"),
        ("CODE_WORDS", "Code::WORDS"),
        ("WORD_SYMBOLS", "Word::SYMBOLS"),
        ("CODE_SYMBOLS", "Code::SYMBOLS"),
        ("SHEET_BYTES", "Sheet::BYTES"),
        // The source has one limit for sheets and ban lists.
        ("BANS_BYTES", "Sheet::BYTES"),
        ("CLASS_SHEET_BYTES", "ClassSheet::BYTES"),
        ("MESSAGE_SYMBOLS", "Message::SYMBOLS"),
        ("TEXT_BYTES", "Text::BYTES"),
        ("TABLE_BYTES", "Image::LENGTH"),
        ("CLASSES_BYTES", "Classes::BYTES"),
        ("OTHER", "Classes::OTHER"),
        ("ANSWER_ENTRIES", "Answer::LENGTH"),
        ("VERDICT_ENTRIES", "Pairs::ROOM"),
        ("VERDICT_WORK", "Pairs::MARKS"),
    ];
    let header = header_numbers();
    for (name, source) in names {
        let defined = header.iter().find(|defined| defined.0 == name).unwrap_or_else(|| panic!("no {name}"));
        assert_eq!(defined.1, value(&all, source), "{name}");
    }
    // The number of pairs is a part of the room that a verdict needs, and has no name of its own.
    for (limit, _) in limits.into_iter().filter(|limit| limit.0 != "Pairs::UNORDERED") {
        assert!(names.iter().any(|name| name.1 == limit), "{limit} has no name in the header");
    }
}

#[test]
fn limits_of_the_second_program() {
    for (ours, theirs) in [
        (furlazon::CODE_WORDS, Code::MAX_WORDS),
        (furlazon::WORD_SYMBOLS, Code::MAX_WORD_SYMBOLS),
        (furlazon::CODE_SYMBOLS, Code::MAX_SYMBOLS),
        (furlazon::SHEET_BYTES, Code::MAX_SHEET_BYTES),
        (furlazon::BANS_BYTES, Code::MAX_BANS_BYTES),
        (furlazon::CLASS_SHEET_BYTES, classes::MAX_SHEET_BYTES),
        (furlazon::MESSAGE_SYMBOLS, Code::MAX_MESSAGE_SYMBOLS),
        (furlazon::TEXT_BYTES, MAX_TEXT_BYTES),
        (furlazon::OTHER as usize, classes::OTHER as usize),
        (furlazon::VERDICT_ENTRIES, VERDICT_ENTRIES),
        (furlazon::VERDICT_WORK, VERDICT_WORKING),
    ] {
        assert_eq!(ours, theirs);
    }
}

/// The version as a text and in parts, in the header and in the binding; its second number is that of the last note on a request.
#[test]
fn the_version() {
    let part = |name: &str| {
        let begin = format!("#define FURLAZON_VERSION{name} ");
        HEADER.lines().find_map(|line| line.strip_prefix(&begin)).unwrap_or_else(|| panic!("no {name}"))
    };
    let parts = ["_MAJOR", "_MINOR", "_PATCH"].map(part).join(".");
    assert_eq!(part(""), format!("\"{parts}\""));
    assert_eq!(furlazon::VERSION, parts);
    let notes = fs::read_dir(Path::new(env!("CARGO_MANIFEST_DIR")).join("../../docs/notes")).expect("notes");
    let requests = notes.filter_map(|note| {
        let name = note.expect("a note").file_name().into_string().expect("a name");
        name.strip_prefix("cr-")?.strip_suffix(".md")?.parse::<u64>().ok()
    });
    assert_eq!(requests.max(), number(part("_MINOR")));
}
