//! The built-in code: the twelve syllable types of Turkish from table 1 of
//! Gönenç, 0 a vowel and 1 a consonant. Which type may come after which is
//! worked out from the two rules of his section 5.

use crate::code::Code;

/// Types A to L. The first six are those of native Turkish.
pub const TYPES: [&str; 12] = ["0", "10", "01", "101", "011", "1011", "110", "1101", "1110", "11101", "11011", "10111"];

/// The code of all types.
pub fn code() -> Code {
    first(TYPES.len())
}

/// The code of so many of the first types, by both rules.
pub fn first(count: usize) -> Code {
    by_rule(count, |next, last| vowel_rule(next, last) || cluster_rule(next, last))
}

/// The first rule forbids a type that starts with a vowel after one that ends with a consonant.
pub fn vowel_rule(next: &str, last: &str) -> bool {
    next.starts_with('0') && last.ends_with('1')
}

/// The second rule forbids a type that starts with two or more consonants after one that ends with a vowel.
pub fn cluster_rule(next: &str, last: &str) -> bool {
    next.starts_with("11") && last.ends_with('0')
}

/// So many of the first types, each of which may begin, and may come after
/// those after which the rule does not forbid it.
pub fn by_rule(count: usize, forbids: impl Fn(&str, &str) -> bool) -> Code {
    let types = &TYPES[..count];
    let row = |next: &&str| types.iter().map(|last| !forbids(next, last)).collect();
    Code { rows: types.iter().map(row).collect(), ..Code::free(types) }
}
