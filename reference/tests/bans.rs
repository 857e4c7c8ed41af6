//! Codes with bans that look two words back: the pair procedure on copies
//! against three words in a row looked up as the bans name them.

use reference::bans::{self, Ban};
use reference::brute::{by_prefixes, by_sequences, permitted, readings};
use reference::code::{Code, Refusal};
use reference::copies::{enlarge, without_copies};
use reference::encode::{encode, joined};
use reference::generate;
use reference::random::Random;
use reference::read::{read, Readings};
use reference::small::{all_bans, codes_of_two_words, of_bits};
use reference::table::Table;
use reference::verdict::{verdict, Verdict};
use std::collections::HashSet;

/// Beginnings kept at once before a brute-force verdict is given up.
const MOST: usize = 5_000;

#[test]
fn every_code_of_two_words_with_all_bans() {
    let all = all_bans(2);
    assert_eq!(all.len(), 4);
    let mut codes = 0;
    for code in codes_of_two_words() {
        for bits in 0..16 {
            let bans = of_bits(&all, bits);
            let answer = verdict(&enlarge(&code, &bans).unwrap());
            assert_eq!(by_prefixes(&code, &bans, MOST).as_ref(), Some(&answer), "{code:?} {bans:?}");
            if code.symbols() == 2 {
                assert_eq!(by_sequences(&code, &bans), answer, "{code:?} {bans:?}");
            }
            codes += 1;
        }
    }
    assert_eq!(codes, 20 * 64 * 16);
}

/// A random code of two to four words and at most `symbols` symbols, with followers mostly allowed.
fn small_code(random: &mut Random, symbols: usize) -> Code {
    let count = random.between(2, 4);
    let kinds = *random.pick(&[1, 2, 2, 2, 3]);
    let mut left = symbols;
    let mut words = Vec::new();
    for word in 0..count {
        let length = random.between(1, 4.min(left - (count - word - 1)));
        words.push((0..length).map(|_| random.below(kinds) as u8).collect());
        left -= length;
    }
    let forbidden = random.between(3, 12);
    let rows = (0..count).map(|_| (0..count).map(|_| !random.one_in(forbidden)).collect()).collect();
    let all_begin = random.one_in(2);
    let starts = (0..count).map(|_| all_begin || random.one_in(2)).collect();
    Code { starts, ..Code::new(words, rows) }
}

/// Up to `most` random bans, in any order; one may stand twice.
fn some_bans(random: &mut Random, code: &Code, most: usize) -> Vec<Ban> {
    let all = all_bans(code.words.len() as u8);
    (0..random.between(1, most)).map(|_| *random.pick(&all)).collect()
}

#[test]
fn random_codes_of_eight_symbols() {
    let mut random = Random(1);
    let (mut ambiguous, mut delayed, mut unbounded, mut changed, mut given_up) = (0, 0, 0, 0, 0);
    for _ in 0..20_000 {
        let code = small_code(&mut random, 8);
        let bans = some_bans(&mut random, &code, 6);
        let answer = verdict(&enlarge(&code, &bans).unwrap());
        // Without bound brute force goes on for all pairs of notes.
        match by_prefixes(&code, &bans, if answer == Verdict::Unbounded { 20 } else { MOST }) {
            None => given_up += 1,
            Some(brute) => assert_eq!(answer, brute, "{code:?} {bans:?}"),
        }
        changed += usize::from(answer != verdict(&code));
        match answer {
            Verdict::Ambiguous { .. } => ambiguous += 1,
            Verdict::Delay(_) => delayed += 1,
            Verdict::Unbounded => unbounded += 1,
        }
    }
    println!("{ambiguous} ambiguous, {delayed} delayed, {unbounded} unbounded, {changed} changed, {given_up} given up");
    assert!(ambiguous > 1_000 && delayed > 1_000 && unbounded > 100 && changed > 300 && given_up < 10);
}

/// Codes of the generator with copies. Brute force gets the words and the bans
/// that the copies stand for.
#[test]
fn generated_codes_of_sixty_symbols() {
    let mut random = Random(6);
    let (mut agreed, mut changed, mut given_up) = (0, 0, 0);
    for _ in 0..5_000 {
        let enlarged = generate::enlarged_code(&mut random);
        let answer = verdict(&enlarged);
        if enlarged.symbols() > if answer == Verdict::Unbounded { 14 } else { 60 } {
            continue;
        }
        let (code, bans) = without_copies(&enlarged);
        match by_prefixes(&code, &bans, 300) {
            None => given_up += 1,
            Some(brute) => {
                assert_eq!(answer, brute, "{code:?} {bans:?}");
                agreed += 1;
                changed += usize::from(answer != verdict(&code));
            }
        }
    }
    println!("{agreed} agree, of these the bans change {changed}, {given_up} given up");
    assert!(agreed > 2_500 && changed > 250 && given_up < 10);
}

#[test]
fn random_codes_of_two_notes_more_by_sequences() {
    let mut random = Random(2);
    for _ in 0..3_000 {
        let code = small_code(&mut random, 4);
        let bans = some_bans(&mut random, &code, 2);
        let enlarged = enlarge(&code, &bans).unwrap();
        if enlarged.symbols() <= 4 {
            assert_eq!(verdict(&enlarged), by_sequences(&code, &bans), "{code:?} {bans:?}");
        }
    }
}

#[test]
fn readings_are_all_readings() {
    let mut random = Random(3);
    let (mut none, mut one, mut several, mut fewer) = (0, 0, 0, 0);
    for _ in 0..10_000 {
        let code = small_code(&mut random, 8);
        let bans = some_bans(&mut random, &code, 6);
        let length = random.below(9);
        let kinds = random.between(1, 2);
        let message: Vec<u8> = (0..length).map(|_| random.below(kinds) as u8).collect();
        let all = readings(&code, &bans, &message);
        let expected = match &all[..] {
            [] => Err(Refusal::NoReading),
            [first] => Ok(Readings::One(first.clone())),
            [first, second, ..] => Ok(Readings::Two(first.clone(), second.clone())),
        };
        let enlarged = enlarge(&code, &bans).unwrap();
        assert_eq!(read(&enlarged, &message), expected, "{code:?} {bans:?} {message:?}");
        fewer += usize::from(all.len() < readings(&code, &[], &message).len());
        match all.len() {
            0 => none += 1,
            1 => one += 1,
            _ => several += 1,
        }
    }
    println!("{none} without reading, {one} with one, {several} with several, {fewer} with fewer than without bans");
    assert!(none > 1_000 && one > 1_000 && several > 300 && fewer > 300);
}

#[test]
fn what_is_permitted_is_encoded() {
    let mut random = Random(4);
    let (mut encoded, mut banned) = (0, 0);
    for _ in 0..20_000 {
        let code = small_code(&mut random, 8);
        let bans = some_bans(&mut random, &code, 4);
        let length = random.below(8);
        let sequence: Vec<u8> = (0..length).map(|_| random.below(code.words.len()) as u8).collect();
        let enlarged = enlarge(&code, &bans).unwrap();
        if permitted(&code, &bans, &sequence) {
            assert_eq!(encode(&enlarged, &sequence), Ok(joined(&code, &sequence)), "{code:?} {bans:?} {sequence:?}");
            encoded += 1;
        } else {
            assert_eq!(encode(&enlarged, &sequence), Err(Refusal::ForbiddenPair), "{code:?} {bans:?} {sequence:?}");
            banned += usize::from(encode(&code, &sequence).is_ok());
        }
        let copy = code.words.len() as u8;
        assert_eq!(encode(&enlarged, &[&sequence[..], &[copy]].concat()), Err(Refusal::UnknownWord));
    }
    println!("{encoded} encoded, {banned} refused for a ban");
    assert!(encoded > 3_000 && banned > 300);
}

/// Do the copies of a table fit, entry by entry? Its words and copies together are a code that a sheet gives.
fn may_be_given(table: &Table) -> bool {
    let (count, originals) = (table.count, table.originals);
    let is_word = |x: usize| table.origins[x] as usize == x && table.behind[x] == 0;
    if !(1..=count).contains(&originals) || !(0..originals).all(is_word) {
        return false;
    }
    let entry = |x: usize, y: usize| table.rows[x].entries[y] == 1;
    let origin = |x: usize| table.origins[x] as usize;
    let next = |y: usize, word: usize| {
        (originals..count).find(|&c| origin(c) == word && table.behind[c] as usize == y).unwrap_or(word)
    };
    let copy_fits = |copy: usize| {
        let (word, behind) = (origin(copy), table.behind[copy] as usize);
        word < originals
            && behind < originals
            && word != behind
            && next(behind, word) == copy
            && table.words[copy] == table.words[word]
            && table.starts[copy] == 0
            && (0..originals).any(|x| !entry(next(word, x), copy))
    };
    let entry_fits = |x: usize, y: usize| entry(x, origin(y)) && x == next(origin(y), origin(x));
    (originals..count).all(copy_fits) && (0..count).all(|x| (0..count).all(|y| !entry(x, y) || entry_fits(x, y)))
}

/// The table with its copies taken for words.
fn plain(table: &Table) -> Table {
    let mut plain = Table { originals: table.count, ..table.clone() };
    for x in 0..table.count.min(Code::MAX_WORDS) {
        plain.origins[x] = x as u8;
        plain.behind[x] = 0;
    }
    plain
}

/// Of generated tables with a damage, those accepted are those that fit entry by entry.
#[test]
fn damaged_tables() {
    let mut random = Random(7);
    let (mut given, mut not_given) = (0, 0);
    for _ in 0..10_000 {
        let code = generate::enlarged_code(&mut random);
        let table = generate::damaged_table(&mut random, &code);
        if plain(&table).code().is_none() {
            assert_eq!(table.code(), None, "{table:?}");
            continue;
        }
        let fits = may_be_given(&table);
        assert_eq!(table.code().is_some(), fits, "{table:?}");
        given += usize::from(fits);
        not_given += usize::from(!fits);
    }
    println!("{given} given, and {not_given} not, though a sheet gives their words and copies as words");
    assert!(given > 1_000 && not_given > 1_000);
}

/// Every value of the words 0 and 1, which may both begin, with one copy or
/// two and all entries: those accepted are those that lists give, and those
/// that fit entry by entry.
#[test]
fn every_value_of_two_words() {
    let all = all_bans(2);
    let mut given = HashSet::new();
    for code in codes_of_two_words().filter(|code| code.words == [[0], [1]] && code.starts == [true; 2]) {
        for bits in 1..16 {
            let mut bans = of_bits(&all, bits);
            given.insert(format!("{:?}", Table::of(&enlarge(&code, &bans).unwrap())));
            bans.reverse();
            given.insert(format!("{:?}", Table::of(&enlarge(&code, &bans).unwrap())));
        }
    }
    let words = Code::free(&["0", "1"]);
    let mut accepted = 0;
    for copies in ["0,1,0", "0,0,1", "0,1,0 0,0,1", "0,0,1 0,1,0"] {
        let mut table = Table::of(&enlarge(&words, &bans::of(copies)).unwrap());
        let count = table.count;
        for bits in 0..1u32 << (count * count) {
            for (x, row) in table.rows[..count].iter_mut().enumerate() {
                for (y, entry) in row.entries[..count].iter_mut().enumerate() {
                    *entry = (bits >> (x * count + y) & 1) as u8;
                }
            }
            let code = table.code();
            assert_eq!(code.is_some(), may_be_given(&table), "{table:?}");
            if let Some(code) = code {
                assert!(given.contains(&format!("{table:?}")), "{table:?}");
                let (words, bans) = without_copies(&code);
                assert_eq!(enlarge(&words, &bans), Ok(code));
                accepted += 1;
            }
        }
    }
    println!("{accepted} values accepted");
    assert_eq!(accepted, given.len());
}
