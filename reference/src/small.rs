//! Every tiny code, for tests against brute force.

use crate::bans::Ban;
use crate::code::Code;

/// All lists of binary words with at most `symbols` symbols in all and exactly `count` words.
fn word_lists(count: usize, symbols: usize) -> Vec<Vec<Vec<u8>>> {
    if count == 0 {
        return vec![Vec::new()];
    }
    let mut lists = Vec::new();
    for length in 1..=symbols + 1 - count {
        for bits in 0..1u32 << length {
            let word: Vec<u8> = (0..length).map(|i| (bits >> i & 1) as u8).collect();
            for rest in word_lists(count - 1, symbols - length) {
                lists.push([vec![word.clone()], rest].concat());
            }
        }
    }
    lists
}

fn rows_of_bits(count: usize, bits: u32) -> Vec<Vec<bool>> {
    (0..count).map(|x| (0..count).map(|y| bits >> (x * count + y) & 1 == 1).collect()).collect()
}

fn starts_of_bits(count: usize, bits: u32) -> Vec<bool> {
    (0..count).map(|x| bits >> x & 1 == 1).collect()
}

/// All binary codes of up to three words and at most so many symbols, with all
/// bans; every word may begin.
pub fn codes(symbols: usize) -> impl Iterator<Item = Code> {
    let words = (1..=3).flat_map(move |count| word_lists(count, symbols));
    words.flat_map(|words| {
        let count = words.len();
        (0..1u32 << (count * count)).map(move |bits| Code::new(words.clone(), rows_of_bits(count, bits)))
    })
}

/// This code with each choice of words that may begin.
pub fn with_all_starts(code: Code) -> impl Iterator<Item = Code> {
    let count = code.words.len();
    (0..1u32 << count).map(move |bits| Code { starts: starts_of_bits(count, bits), ..code.clone() })
}

/// All codes of two words and at most three symbols, with all followers and start marks.
pub fn codes_of_two_words() -> impl Iterator<Item = Code> {
    const WORDS: [&str; 6] = ["0", "1", "00", "01", "10", "11"];
    let pairs = WORDS.iter().flat_map(|first| WORDS.iter().map(|second| [*first, *second]));
    pairs.filter(|[first, second]| first.len() + second.len() <= 3).flat_map(|words| {
        (0..64u32).map(move |bits| {
            let digits = |from: u32| format!("{}{}", bits >> from & 1, bits >> (from + 1) & 1);
            Code::of(&words, &[&digits(0), &digits(2)]).with_starts(&digits(4))
        })
    })
}

/// All bans on a code of so many words.
pub fn all_bans(words: u8) -> Vec<Ban> {
    let numbers = move || 0..words;
    let triples = numbers().flat_map(move |y| numbers().flat_map(move |z| numbers().map(move |x| Ban { x, y, z })));
    triples.filter(|ban| ban.y != ban.z).collect()
}

/// The bans whose bits are set.
pub fn of_bits(all: &[Ban], bits: u32) -> Vec<Ban> {
    (0..all.len()).filter(|&i| bits >> i & 1 == 1).map(|i| all[i]).collect()
}

/// All binary messages of up to so many symbols, the empty one included.
pub fn messages(symbols: usize) -> impl Iterator<Item = Vec<u8>> {
    (0..=symbols)
        .flat_map(|length| (0..1u32 << length).map(move |bits| (0..length).map(|i| (bits >> i & 1) as u8).collect()))
}
