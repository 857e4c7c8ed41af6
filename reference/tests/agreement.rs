//! The pair procedure against the definitions, on every tiny code and on
//! thousands of small random ones.

use reference::brute::{by_prefixes, by_sequences, readings};
use reference::code::{Code, Refusal};
use reference::encode::{encode, joined, permitted};
use reference::generate;
use reference::random::Random;
use reference::read::{read, Readings};
use reference::sheet::{take_in, write, write_with_starts};
use reference::small::{codes, with_all_starts};
use reference::verdict::{verdict, Verdict};

/// Beginnings kept at once before a brute-force verdict is given up.
const MOST: usize = 20_000;

fn agrees_with_prefixes(code: &Code) {
    assert_eq!(Some(verdict(code)), by_prefixes(code, &[], MOST), "{code:?}");
}

fn agrees_with_sequences(code: &Code) {
    assert_eq!(verdict(code), by_sequences(code, &[]), "{code:?}");
}

#[test]
fn every_binary_code_of_three_words_and_four_symbols() {
    let codes = codes(4).inspect(agrees_with_sequences).inspect(agrees_with_prefixes);
    assert_eq!(codes.count(), 30 * 2 + 68 * 16 + 56 * 512);
}

#[test]
fn every_choice_of_words_that_may_begin() {
    let codes = codes(4).flat_map(with_all_starts).inspect(agrees_with_prefixes);
    assert_eq!(codes.count(), 30 * 4 + 68 * 64 + 56 * 4_096);
}

#[test]
fn every_choice_of_words_that_may_begin_by_sequences() {
    let codes = codes(3).flat_map(with_all_starts).inspect(agrees_with_sequences);
    assert_eq!(codes.count(), 14 * 4 + 20 * 64 + 8 * 4_096);
}

/// A random code with at most `symbols` symbols in all, over few different
/// symbols. In half of the codes every word may begin, in a quarter only one.
fn small_code(random: &mut Random, symbols: usize) -> Code {
    let kinds = *random.pick(&[1, 2, 2, 2, 3]);
    let mut words = Vec::new();
    let mut left = random.between(symbols / 2, symbols);
    while left > 0 {
        let length = random.between(1, left.min(4));
        words.push((0..length).map(|_| random.below(kinds) as u8).collect());
        left -= length;
    }
    let bans = random.between(2, 6);
    let rows = words.iter().map(|_: &Vec<u8>| words.iter().map(|_| !random.one_in(bans)).collect()).collect();
    let only = random.below(words.len());
    let style = random.below(4);
    let starts = (0..words.len()).map(|word| match style {
        0 | 1 => true,
        2 => word == only,
        _ => random.one_in(2),
    });
    Code { starts: starts.collect(), ..Code::new(words, rows) }
}

#[test]
fn random_codes_of_ten_symbols() {
    let mut random = Random(1);
    let (mut ambiguous, mut delayed, mut unbounded, mut given_up) = (0, 0, 0, 0);
    for _ in 0..30_000 {
        let code = small_code(&mut random, 10);
        let answer = verdict(&code);
        match by_prefixes(&code, &[], MOST) {
            None => given_up += 1,
            Some(brute) => assert_eq!(answer, brute, "{code:?}"),
        }
        match answer {
            Verdict::Ambiguous { .. } => ambiguous += 1,
            Verdict::Delay(_) => delayed += 1,
            Verdict::Unbounded => unbounded += 1,
        }
    }
    println!("{ambiguous} ambiguous, {delayed} delayed, {unbounded} unbounded, {given_up} given up");
    assert!(ambiguous > 1_000 && delayed > 1_000 && unbounded > 300 && given_up < 30);
}

/// Codes of the generator, many with openings that matter. Without bound brute
/// force goes on for all pairs of notes, so those codes are small.
#[test]
fn generated_codes_of_sixty_symbols() {
    let mut random = Random(6);
    let (mut agreed, mut given_up, mut shared) = (0, 0, 0);
    for _ in 0..10_000 {
        let code = generate::code(&mut random);
        let answer = verdict(&code);
        if code.symbols() > if answer == Verdict::Unbounded { 12 } else { 60 } {
            continue;
        }
        match by_prefixes(&code, &[], 300) {
            None => given_up += 1,
            Some(brute) => {
                assert_eq!(answer, brute, "{code:?}");
                agreed += 1;
            }
        }
        if let Verdict::Ambiguous { first, second, .. } = answer {
            shared += usize::from(first[0] == second[0]);
        }
    }
    println!("{agreed} agree, {given_up} given up, {shared} ambiguous after an opening");
    assert!(agreed > 6_000 && given_up < 10 && shared > 500);
}

#[test]
fn random_codes_of_four_symbols_by_sequences() {
    let mut random = Random(2);
    for _ in 0..10_000 {
        let code = small_code(&mut random, 4);
        if code.words.len() < 4 {
            agrees_with_sequences(&code);
        }
    }
}

#[test]
fn readings_are_all_readings() {
    let mut random = Random(3);
    let (mut none, mut one, mut several) = (0, 0, 0);
    for _ in 0..5_000 {
        let code = small_code(&mut random, 8);
        let length = random.below(9);
        let kinds = random.between(1, 2);
        let message: Vec<u8> = (0..length).map(|_| random.below(kinds) as u8).collect();
        let all = readings(&code, &[], &message);
        let expected = match &all[..] {
            [] => Err(Refusal::NoReading),
            [first] => Ok(Readings::One(first.clone())),
            [first, second, ..] => Ok(Readings::Two(first.clone(), second.clone())),
        };
        assert_eq!(read(&code, &message), expected, "{code:?} {message:?}");
        match all.len() {
            0 => none += 1,
            1 => one += 1,
            _ => several += 1,
        }
    }
    println!("{none} without reading, {one} with one, {several} with several");
    assert!(none > 1_000 && one > 300 && several > 300);
}

#[test]
fn what_is_encoded_is_read_again() {
    let mut random = Random(4);
    for _ in 0..5_000 {
        let code = small_code(&mut random, 12);
        let length = random.below(12);
        let sequence: Vec<u8> = (0..length).map(|_| random.below(code.words.len()) as u8).collect();
        if !permitted(&code, &sequence) {
            assert_eq!(encode(&code, &sequence), Err(Refusal::ForbiddenPair));
            continue;
        }
        let message = encode(&code, &sequence).unwrap();
        assert_eq!(message, joined(&code, &sequence));
        match read(&code, &message).unwrap() {
            Readings::One(only) => assert_eq!(only, sequence),
            Readings::Two(first, second) => {
                assert!(first < second && first <= sequence);
                assert!(sequence == first || second <= sequence);
                assert_eq!(encode(&code, &second).as_ref(), Ok(&message));
            }
        }
    }
}

#[test]
fn a_written_sheet_gives_its_code() {
    let mut random = Random(5);
    for _ in 0..1_000 {
        let code = small_code(&mut random, 30);
        assert_eq!(take_in(&write(&code)).as_ref(), Ok(&code));
        assert_eq!(take_in(&write_with_starts(&code)).as_ref(), Ok(&code));
    }
}
