//! The fourteen codes that the scope paper holds a program against, codes with
//! start marks, and codes with ban lists.

use reference::bans::{self, Ban};
use reference::brute::{by_prefixes, by_sequences, readings};
use reference::cases::{
    ambiguous, banned, code_t, code_u, codes_for_the_empty_message, limit_sheets, openings, refused_lists, shortening,
    turkish_six, turkish_twelve,
};
use reference::code::{Code, Copied, Refusal};
use reference::copies::enlarge;
use reference::encode::encode;
use reference::print::result;
use reference::read::{read, Readings};
use reference::sheet::take_in;
use reference::verdict::{verdict, Verdict};
use std::fs;

/// The pair procedure and brute force give this verdict. Listing all sequences
/// is left to codes of at most five symbols: code U alone has over 10^9.
fn gives(code: &Code, expected: Verdict) {
    assert_eq!(verdict(code), expected);
    assert_eq!(by_prefixes(code, &[], 1_000).as_ref(), Some(&expected));
    if code.symbols() <= 5 {
        assert_eq!(by_sequences(code, &[]), expected);
    }
}

/// The message has this reading alone, also among all sequences.
fn reads(code: &Code, message: &[u8], only: &[u8]) {
    assert_eq!(read(code, message), Ok(Readings::One(only.to_vec())));
    assert_eq!(readings(code, &[], message), [only]);
}

/// With these bans the message has these readings and no others, by copies and among all sequences.
fn reads_under(code: &Code, bans: &[Ban], message: &[u8], all: &[&[u8]]) {
    let expected = match *all {
        [] => Err(Refusal::NoReading),
        [only] => Ok(Readings::One(only.to_vec())),
        [first, second, ..] => Ok(Readings::Two(first.to_vec(), second.to_vec())),
    };
    assert_eq!(read(&enlarge(code, bans).unwrap(), message), expected);
    assert_eq!(readings(code, bans, message), all);
}

#[test]
fn case_1_one_word() {
    gives(&Code::free(&["0"]), Verdict::Delay(0));
}

#[test]
fn case_2_two_symbols() {
    gives(&Code::free(&["0", "1"]), Verdict::Delay(1));
}

#[test]
fn case_3_a_word_that_begins_another() {
    gives(&Code::free(&["0", "01"]), Verdict::Delay(2));
}

#[test]
fn case_4_no_word_begins_another() {
    gives(&Code::free(&["0", "10", "11"]), Verdict::Delay(2));
}

#[test]
fn case_5_without_bound() {
    gives(&Code::free(&["0", "01", "11"]), Verdict::Unbounded);
}

#[test]
fn case_6_equal_words() {
    gives(&Code::of(&["0", "0"], &["00", "00"]), ambiguous(&[0], &[0], &[1]));
}

#[test]
fn case_7_code_t() {
    gives(&code_t(), ambiguous(&[0, 1, 0], &[0, 1], &[2, 0]));
    let sheet = b"0,1,1,1,1\r\n10,1,1,1,1\r\n01,1,1,1,1\r\n101,1,1,1,1\r\n";
    assert_eq!(result(sheet, b""), b"ambiguous,010\r\n0,1\r\n2,0\r\n");
}

#[test]
fn case_8_code_u() {
    gives(&code_u(), Verdict::Delay(4));
}

#[test]
fn case_9_code_u_reads_1010() {
    reads(&code_u(), &[1, 0, 1, 0], &[1, 1]);
}

#[test]
fn case_10_code_u_reads_01101() {
    reads(&code_u(), &[0, 1, 1, 0, 1], &[2, 3]);
}

#[test]
fn case_11_six_turkish_types() {
    gives(&turkish_six(), Verdict::Delay(5));
}

#[test]
fn case_12_twelve_turkish_types() {
    gives(&turkish_twelve(), ambiguous(&[0, 1, 1, 1, 0], &[2, 6], &[4, 1]));
}

#[test]
fn case_13_the_empty_message() {
    for code in codes_for_the_empty_message() {
        reads(&code, &[], &[]);
    }
}

#[test]
fn case_14_the_limits() {
    for (sheet, refusal) in limit_sheets() {
        assert_eq!(take_in(&sheet).err(), refusal, "{}", String::from_utf8_lossy(&sheet));
    }
}

#[test]
fn openings_in_the_verdict() {
    for opening in openings() {
        gives(&opening.code, opening.verdict);
        let path = format!("{}/../sheets/{}.csv", env!("CARGO_MANIFEST_DIR"), opening.sheet);
        assert_eq!(take_in(&fs::read(path).unwrap()), Ok(opening.code), "{}", opening.sheet);
    }
}

/// Where 01 may not begin, 010 keeps one of its two readings in code T, and 01 loses its only one.
#[test]
fn openings_in_readings_and_sequences() {
    let code = code_t().with_starts("1101");
    reads(&code, &[], &[]);
    reads(&code, &[0, 1, 0], &[0, 1]);
    assert_eq!(read(&code_t(), &[0, 1]), Ok(Readings::One(vec![2])));
    assert_eq!(read(&code, &[0, 1]), Err(Refusal::NoReading));
    assert!(readings(&code, &[], &[0, 1]).is_empty());
    assert_eq!(encode(&code, &[]), Ok(vec![]));
    assert_eq!(encode(&code, &[2, 0]), Err(Refusal::ForbiddenPair));
    assert_eq!(encode(&code, &[0, 2, 0]), Ok(vec![0, 0, 1, 0]));
    assert_eq!(encode(&code, &[2, 4]), Err(Refusal::UnknownWord));
    let long = [vec![2], vec![3; 6_000]].concat();
    assert_eq!(encode(&code, &long), Err(Refusal::ForbiddenPair));
    assert_eq!(encode(&code, &long[1..]), Err(Refusal::MessageLength));
}

#[test]
fn nothing_begins() {
    let code = Code::free(&["0", "01"]).with_starts("00");
    reads(&code, &[], &[]);
    assert_eq!(read(&code, &[0]), Err(Refusal::NoReading));
    assert_eq!(encode(&code, &[0]), Err(Refusal::ForbiddenPair));
}

#[test]
fn a_column_of_ones_changes_nothing() {
    let without = take_in(b"0,1,1,0,0\r\n10,1,1,1,1\r\n01,1,1,0,0\r\n101,1,1,1,1\r\n");
    let with = take_in(b"0,1,1,1,0,0\r\n10,1,1,1,1,1\r\n01,1,1,1,0,0\r\n101,1,1,1,1,1\r\n");
    assert_eq!((&without, &with), (&Ok(code_u()), &Ok(code_u())));
}

#[test]
fn ban_lists_in_the_verdict() {
    for case in banned() {
        let enlarged = enlarge(&case.code, &case.bans).unwrap();
        assert_eq!(verdict(&enlarged), case.verdict, "{}", case.sheet);
        assert_eq!(by_prefixes(&case.code, &case.bans, 1_000).as_ref(), Some(&case.verdict), "{}", case.sheet);
        let path = |kind: &str| format!("{}/../sheets/{}.{kind}", env!("CARGO_MANIFEST_DIR"), case.sheet);
        let sheet = fs::read(path("csv")).unwrap();
        let list = fs::read(path("bans")).unwrap();
        assert_eq!(take_in(&sheet).as_ref(), Ok(&case.code), "{}", case.sheet);
        assert_eq!(bans::take_in(&list, case.code.words.len()), Ok(case.bans), "{}", case.sheet);
    }
}

#[test]
fn refused_ban_lists() {
    for case in refused_lists() {
        let path = |kind: &str| format!("{}/../sheets/{}.{kind}", env!("CARGO_MANIFEST_DIR"), case.name);
        assert_eq!(fs::read(path("csv")).unwrap(), case.sheet, "{}", case.name);
        assert_eq!(fs::read(path("bans")).unwrap(), case.list, "{}", case.name);
        let printed = format!("refused,{}\r\n", case.refusal.number()).into_bytes();
        assert_eq!(result(&case.sheet, &case.list), printed, "{}", case.name);
    }
}

/// The limits are met exactly: 32 words, 128 symbols and 4,096 bytes, and one more of each.
#[test]
fn ban_lists_at_the_limits() {
    let named = |name: &str| banned().into_iter().find(|case| case.sheet == name).unwrap();
    let enlarged = |name: &str| enlarge(&named(name).code, &named(name).bans).unwrap();
    assert_eq!(enlarged("bans-32-words").words.len(), 32);
    assert_eq!(enlarged("bans-128-symbols").symbols(), 128);
    assert_eq!(bans::write(&named("bans-4096-bytes").bans).len(), 4_096);
    let refused = |name: &str| refused_lists().into_iter().find(|case| case.name == name).unwrap();
    assert_eq!(refused("bans-refusal-1-too-long").list.len(), 4_097);
    let sizes = |name: &str| {
        let code = take_in(&refused(name).sheet).unwrap();
        let mut pairs: Vec<(u8, u8)> =
            bans::take_in(&refused(name).list, code.words.len()).unwrap().iter().map(|ban| (ban.y, ban.z)).collect();
        pairs.sort();
        pairs.dedup();
        let copied: usize = pairs.iter().map(|&(_, z)| code.words[z as usize].len()).sum();
        (code.words.len() + pairs.len(), code.symbols() + copied)
    };
    assert_eq!(sizes("bans-refusal-17-words"), (33, 33));
    assert_eq!(sizes("bans-refusal-17-symbols"), (9, 129));
}

/// 0, 1, 010 with bans on 0 and 010 after 0 and 1: one copy of 1, which only 1 may follow.
#[test]
fn a_code_with_one_copy() {
    let code = Code::free(&["0", "1", "010"]);
    let enlarged = enlarge(&code, &bans::of("0,0,1 2,0,1")).unwrap();
    let expected = Code::of(&["0", "1", "010", "1"], &["1110", "0111", "1110", "1000"]).with_starts("1110");
    assert_eq!(enlarged, Code { copies: vec![Copied { word: 1, behind: 0 }], ..expected });
}

/// The copies of a chain: 2 behind 1 stands after 1 and after the copy of 1 behind 0.
#[test]
fn a_copy_that_follows_a_copy() {
    let code = Code::free(&["0", "1", "2"]);
    let enlarged = enlarge(&code, &bans::of("0,1,2 0,0,1")).unwrap();
    let rows = ["11100", "01111", "10110", "01001", "10000"];
    let copies = vec![Copied { word: 2, behind: 1 }, Copied { word: 1, behind: 0 }];
    let expected = Code::of(&["0", "1", "2", "2", "1"], &rows).with_starts("11100");
    assert_eq!(enlarged, Code { copies, ..expected });
}

#[test]
fn ban_lists_in_readings_and_sequences() {
    let code = Code::free(&["0", "1", "010"]);
    let bans = bans::of("0,0,1 2,0,1");
    reads_under(&code, &[], &[0, 1, 0], &[&[0, 1, 0], &[2]]);
    reads_under(&code, &bans, &[0, 1, 0], &[&[2]]);
    reads_under(&code, &bans, &[0, 1, 1, 0], &[&[0, 1, 1, 0]]);
    reads_under(&code, &bans, &[], &[&[]]);
    let enlarged = enlarge(&code, &bans).unwrap();
    assert_eq!(encode(&enlarged, &[0, 1]), Ok(vec![0, 1]));
    assert_eq!(encode(&enlarged, &[0, 1, 1, 0]), Ok(vec![0, 1, 1, 0]));
    assert_eq!(encode(&enlarged, &[1, 1, 0]), Ok(vec![1, 1, 0]));
    assert_eq!(encode(&enlarged, &[0, 1, 0]), Err(Refusal::ForbiddenPair));
    assert_eq!(encode(&enlarged, &[0, 0, 1, 2]), Err(Refusal::ForbiddenPair));
    // The number of the copy is no word's.
    assert_eq!(encode(&enlarged, &[0, 3]), Err(Refusal::UnknownWord));
}

/// By the copies' numbers the reading 0,1 would stand after the two others.
#[test]
fn readings_in_the_order_of_the_originals() {
    let code = Code::free(&["1", "0", "0", "0"]).with_starts("1000");
    reads_under(&code, &bans::of("0,0,1"), &[1, 0], &[&[0, 1], &[0, 2], &[0, 3]]);
    reads_under(&code, &bans::of("0,0,2"), &[1, 0], &[&[0, 1], &[0, 2], &[0, 3]]);
    reads_under(&code, &bans::of("0,0,1"), &[1, 0, 1], &[&[0, 2, 0], &[0, 3, 0]]);
}

/// After a long vowel in an open syllable two more syllables do not come.
#[test]
fn a_long_vowel_is_shortened() {
    let code = shortening();
    let bans = bans::of("0,1,0 1,1,0 2,1,0 3,1,0");
    reads_under(&code, &bans, &[1, 2, 1, 0], &[&[1, 0]]);
    reads_under(&code, &bans, &[1, 2, 1, 0, 1, 0], &[]);
    reads_under(&code, &bans, &[1, 0, 1, 0, 1, 0], &[&[0, 0, 0]]);
    reads_under(&code, &bans, &[1, 2, 1, 1, 0, 1, 0], &[&[3, 0, 0]]);
}
