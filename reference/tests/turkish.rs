//! The built-in code is the one that Gönenç prints, and another rule would not give it.

use reference::brute::{by_prefixes, readings};
use reference::cases::ambiguous;
use reference::code::Code;
use reference::encode::encode;
use reference::read::{read, Readings};
use reference::sheet::take_in;
use reference::turkish::{by_rule, cluster_rule, code, first, vowel_rule, TYPES};
use reference::verdict::{verdict, Verdict};
use std::fs;

/// The matrix of section 5. In the text of the source a bracket hides the
/// entry of A after A; the matrix of the first six types has 1 there.
const PRINTED: [&str; 12] = [
    "110000101000",
    "111111111111",
    "110000101000",
    "111111111111",
    "110000101000",
    "111111111111",
    "001111010111",
    "001111010111",
    "001111010111",
    "001111010111",
    "001111010111",
    "111111111111",
];

/// The rows of a code, 0 for a type that may not follow.
fn rows(code: &Code) -> Vec<String> {
    let digit = |&entry: &bool| if entry { '1' } else { '0' };
    code.rows.iter().map(|row| row.iter().map(digit).collect()).collect()
}

#[test]
fn the_rules_give_the_printed_matrix() {
    assert_eq!(rows(&code()), PRINTED);
}

/// Each rule by itself, a rule turned round, and a rule for one consonant or more.
#[test]
fn other_rules_give_another_matrix() {
    type Rule = fn(&str, &str) -> bool;
    let others: [(&str, Rule); 6] = [
        ("the first rule alone", vowel_rule),
        ("the second rule alone", cluster_rule),
        ("the first turned round", |x, y| vowel_rule(y, x) || cluster_rule(x, y)),
        ("the second turned round", |x, y| vowel_rule(x, y) || cluster_rule(y, x)),
        ("both turned round", |x, y| vowel_rule(y, x) || cluster_rule(y, x)),
        ("one or more", |x, y| vowel_rule(x, y) || x.starts_with('1') && y.ends_with('0')),
    ];
    for (name, forbids) in others {
        assert_ne!(rows(&by_rule(TYPES.len(), forbids)), PRINTED, "{name}");
    }
}

#[test]
fn the_rules_give_the_stored_sheets() {
    for (sheet, types) in [("turkish-twelve", code()), ("turkish-six", first(6))] {
        let path = format!("{}/../sheets/{sheet}.csv", env!("CARGO_MANIFEST_DIR"));
        assert_eq!(take_in(&fs::read(path).unwrap()), Ok(types), "{sheet}");
    }
}

/// By the pair procedure and by brute force.
#[test]
fn verdicts() {
    for (types, expected) in [(code(), ambiguous(&[0, 1, 1, 1, 0], &[2, 6], &[4, 1])), (first(6), Verdict::Delay(5))] {
        assert_eq!(verdict(&types), expected);
        assert_eq!(by_prefixes(&types, &[], 1_000), Some(expected));
    }
}

/// The ambiguous words that section 5 lists: these two readings and no others.
#[test]
fn printed_ambiguities() {
    let [b, c, d, e, f, g, h] = [1, 2, 3, 4, 5, 6, 7];
    let printed: [(&[u8], [u8; 2], [u8; 2]); 4] = [
        (&[0, 1, 1, 1, 0], [c, g], [e, b]),
        (&[1, 0, 1, 1, 1, 0], [d, g], [f, b]),
        (&[0, 1, 1, 1, 0, 1], [c, h], [e, d]),
        (&[1, 0, 1, 1, 1, 0, 1], [d, h], [f, d]),
    ];
    let code = code();
    for (message, first, second) in printed {
        assert_eq!(read(&code, message), Ok(Readings::Two(first.to_vec(), second.to_vec())));
        assert_eq!(readings(&code, &[], message), [first, second]);
        assert_eq!(encode(&code, &first).as_deref(), Ok(message));
        assert_eq!(encode(&code, &second).as_deref(), Ok(message));
    }
}
