//! The slips that the sheets teach: what a program with the slip would print.
//! The wrong programs are the pair procedure with one thing changed.

use reference::bans;
use reference::code::Code;
use reference::copies::enlarge;
use reference::print::{self, result};
use reference::sheet::take_in;
use reference::verdict::verdict;
use std::cmp::Reverse;
use std::collections::{BTreeSet, BinaryHeap};
use std::fs;

#[derive(Clone, Copy, PartialEq)]
enum Slip {
    None,
    RowsAndColumns,
    WordWithItself,
    MergedEnds,
    PairMetTwice,
    StepsForDelay,
    FirstPairOnly,
    MarksIgnored,
    MarkFromRowEntry,
    UnreachedWordsGivePairs,
    OnlyBeginningWordsGivePairs,
    OpeningLeftOut,
    OpeningCounted,
    DelayWithoutRivals,
}

/// A word and the number of its symbols read.
type Place = (usize, usize);

fn next(code: &Code, slip: Slip, (word, read): Place, symbol: u8) -> Vec<Place> {
    if read < code.words[word].len() {
        let fits = code.words[word][read] == symbol;
        return if fits { vec![(word, read + 1)] } else { vec![] };
    }
    let allowed = |x: usize| match slip {
        Slip::RowsAndColumns => code.rows[word][x],
        Slip::MergedEnds => true,
        _ => code.rows[x][word],
    };
    (0..code.words.len()).filter(|&x| allowed(x) && code.words[x][0] == symbol).map(|x| (x, 1)).collect()
}

/// The symbols of a shortest opening: of the empty one, and of one to each word that a message reaches.
fn openings(code: &Code, slip: Slip) -> Vec<(Option<u8>, usize)> {
    let mut openings = Vec::new();
    let mut waiting = BTreeSet::from([(0, None)]);
    while let Some((symbols, last)) = waiting.pop_first() {
        if openings.iter().all(|&(other, _)| other != last) {
            openings.push((last, symbols));
            let next = (0..code.words.len()).filter(|&word| code.may_come(word, last));
            waiting.extend(next.map(|word| (symbols + code.words[word].len(), Some(word as u8))));
        }
    }
    if slip == Slip::UnreachedWordsGivePairs {
        openings.extend((0..code.words.len()).map(|word| (Some(word as u8), 0)));
    }
    if slip == Slip::OnlyBeginningWordsGivePairs {
        openings.truncate(1);
    }
    openings
}

/// The words that compete, in pairs, each with the symbols of a shortest opening.
fn rivals(code: &Code, slip: Slip) -> Vec<(usize, (usize, usize))> {
    let mut rivals = Vec::new();
    for (last, symbols) in openings(code, slip) {
        let next: Vec<usize> = (0..code.words.len()).filter(|&word| code.may_come(word, last)).collect();
        for &x in &next {
            for &y in next.iter().filter(|&&y| x < y || x == y && slip == Slip::WordWithItself) {
                if rivals.iter().all(|&(_, pair)| pair != (x, y)) {
                    rivals.push((symbols, (x, y)));
                }
            }
        }
    }
    rivals
}

/// The first record that the wrong program prints; of an ambiguous message only the number of its symbols.
fn printed(code: &Code, slip: Slip) -> String {
    let rivals = rivals(code, slip);
    if rivals.is_empty() && slip != Slip::DelayWithoutRivals {
        return "decipherable,0".to_string();
    }
    let mut first_pairs: Vec<(usize, (Place, Place))> = Vec::new();
    for (opening, (x, y)) in rivals {
        if code.words[x][0] == code.words[y][0] {
            first_pairs.push((opening, ((x, 1), (y, 1))));
        }
    }
    if slip == Slip::FirstPairOnly {
        first_pairs.truncate(1);
    }
    let mut seen: BTreeSet<(Place, Place)> = first_pairs.iter().map(|&(_, pair)| pair).collect();
    // The shortest message first, the opening included.
    let mut queue: BinaryHeap<_> =
        first_pairs.into_iter().map(|(opening, pair)| Reverse((opening + 1, 1, pair))).collect();
    let most = code.symbols() * (code.symbols() + 1) / 2;
    let mut longest = 0;
    while let Some(Reverse((symbols, steps, (p, q)))) = queue.pop() {
        let at_end = |(word, read): Place| read == code.words[word].len();
        if at_end(p) && at_end(q) {
            return format!("ambiguous after {}", if slip == Slip::OpeningLeftOut { steps } else { symbols });
        }
        if steps > most {
            return "decipherable,unbounded".to_string();
        }
        longest = longest.max(if slip == Slip::OpeningCounted { symbols } else { steps });
        for symbol in 0..16 {
            for p in next(code, slip, p, symbol) {
                for q in next(code, slip, q, symbol) {
                    let pair = (p.min(q), p.max(q));
                    if !seen.insert(pair) && slip == Slip::PairMetTwice {
                        return "decipherable,unbounded".to_string();
                    }
                    // Small codes only: paths are followed one by one.
                    queue.push(Reverse((symbols + 1, steps + 1, pair)));
                }
            }
        }
    }
    let delay = if slip == Slip::StepsForDelay { longest } else { longest + 1 };
    format!("decipherable,{delay}")
}

/// Holds a sheet's right first record against what a program with the slip
/// prints; of an ambiguous message only the number of its symbols.
fn taught(name: &str, slip: Slip, right: &str, wrong: &str) {
    let path = format!("{}/../sheets/{name}.csv", env!("CARGO_MANIFEST_DIR"));
    let sheet = fs::read(path).unwrap();
    let code = take_in(&sheet).unwrap();
    let stored = String::from_utf8(result(&sheet, b"")).unwrap();
    let first_record = match stored.lines().next().unwrap().split_once(',').unwrap() {
        ("ambiguous", message) => format!("ambiguous after {}", message.len()),
        (kind, value) => format!("{kind},{value}"),
    };
    assert_eq!(first_record, right);
    assert_eq!(printed(&code, Slip::None), right);
    let every_word = Code::new(code.words.clone(), code.rows.clone());
    let seen = match slip {
        Slip::MarksIgnored => every_word,
        Slip::MarkFromRowEntry => Code { starts: code.rows.iter().map(|row| row[0]).collect(), ..every_word },
        _ => code,
    };
    assert_eq!(printed(&seen, slip), wrong);
}

#[test]
fn slip_1_rows_and_columns_exchanged() {
    taught("slip-1-rows-and-columns", Slip::RowsAndColumns, "decipherable,2", "ambiguous after 2");
    taught("code-u", Slip::RowsAndColumns, "decipherable,4", "ambiguous after 3");
}

#[test]
fn slip_2_a_word_with_itself() {
    taught("slip-2-word-with-itself", Slip::WordWithItself, "decipherable,2", "ambiguous after 1");
}

#[test]
fn slip_3_all_ends_merged() {
    taught("slip-3-merged-ends", Slip::MergedEnds, "decipherable,3", "ambiguous after 3");
    taught("code-u", Slip::MergedEnds, "decipherable,4", "ambiguous after 3");
    taught("turkish-six", Slip::MergedEnds, "decipherable,5", "ambiguous after 3");
}

#[test]
fn slip_4_a_pair_met_twice() {
    taught("slip-4-pair-met-twice", Slip::PairMetTwice, "decipherable,4", "decipherable,unbounded");
}

#[test]
fn slip_5_another_number_than_the_delay() {
    taught("slip-5-longest-path", Slip::StepsForDelay, "decipherable,4", "decipherable,3");
    taught("slip-5-longest-path", Slip::FirstPairOnly, "decipherable,4", "decipherable,2");
    taught("code-u", Slip::StepsForDelay, "decipherable,4", "decipherable,3");
    taught("code-u", Slip::FirstPairOnly, "decipherable,4", "decipherable,3");
}

#[test]
fn start_marks_ignored() {
    taught("opening-code-t", Slip::MarksIgnored, "ambiguous after 4", "ambiguous after 3");
    taught("opening-none-begins", Slip::MarksIgnored, "decipherable,0", "decipherable,2");
    taught("opening-told-apart", Slip::MarksIgnored, "decipherable,1", "decipherable,unbounded");
    taught("opening-equal-words", Slip::MarksIgnored, "ambiguous after 2", "ambiguous after 1");
}

#[test]
fn start_mark_from_the_first_row_entry() {
    taught("opening-none-begins", Slip::MarkFromRowEntry, "decipherable,0", "decipherable,2");
    taught("opening-shared", Slip::MarkFromRowEntry, "ambiguous after 2", "ambiguous after 1");
}

#[test]
fn other_first_pairs() {
    taught("opening-not-reached", Slip::UnreachedWordsGivePairs, "decipherable,0", "ambiguous after 1");
    taught("opening-delay", Slip::OnlyBeginningWordsGivePairs, "decipherable,2", "decipherable,0");
    taught("opening-shared", Slip::OnlyBeginningWordsGivePairs, "ambiguous after 2", "decipherable,0");
}

#[test]
fn the_opening_left_out_or_counted() {
    taught("opening-code-t", Slip::OpeningLeftOut, "ambiguous after 4", "ambiguous after 3");
    taught("opening-shared", Slip::OpeningLeftOut, "ambiguous after 2", "ambiguous after 1");
    taught("opening-delay", Slip::OpeningCounted, "decipherable,2", "decipherable,3");
}

#[test]
fn a_delay_where_no_words_compete() {
    for name in ["one-word", "opening-forced", "opening-none-begins", "opening-not-reached"] {
        taught(name, Slip::DelayWithoutRivals, "decipherable,0", "decipherable,1");
    }
}

/// A program that makes something else of the code and its bans; it is given the code and the right copies.
type WrongCopies = fn(&Code, Code) -> Code;

fn bans_ignored(code: &Code, _: Code) -> Code {
    code.clone()
}

fn word_stays_after_y(code: &Code, mut enlarged: Code) -> Code {
    for copy in &enlarged.copies {
        let (word, behind) = (copy.word as usize, copy.behind as usize);
        enlarged.rows[word][behind] = code.rows[word][behind];
    }
    enlarged
}

fn copy_after_y_only(code: &Code, mut enlarged: Code) -> Code {
    for copy in code.words.len()..enlarged.words.len() {
        enlarged.rows[copy][code.words.len()..].fill(false);
    }
    enlarged
}

fn word_after_copies_of_y(code: &Code, enlarged: Code) -> Code {
    let mut wrong = copy_after_y_only(code, enlarged.clone());
    for copy in code.words.len()..enlarged.words.len() {
        for last in code.words.len()..enlarged.words.len() {
            wrong.rows[enlarged.original(copy)][last] |= enlarged.rows[copy][last];
        }
    }
    wrong
}

fn copy_may_begin(_: &Code, mut enlarged: Code) -> Code {
    enlarged.starts = (0..enlarged.words.len()).map(|word| enlarged.starts[enlarged.original(word)]).collect();
    enlarged
}

fn copies_are_words(_: &Code, enlarged: Code) -> Code {
    Code { copies: Vec::new(), ..enlarged }
}

/// Holds what is stored for a sheet and its ban list against what the wrong program prints.
fn taught_by_bans(name: &str, slip: WrongCopies, right: &str, wrong: &str) {
    let read = |kind: &str| fs::read(format!("{}/../sheets/{name}.{kind}", env!("CARGO_MANIFEST_DIR"))).unwrap();
    let code = take_in(&read("csv")).unwrap();
    let bans = bans::take_in(&read("bans"), code.words.len()).unwrap();
    let text = |printed: Vec<u8>| String::from_utf8(printed).unwrap().replace("\r\n", " ").trim_end().to_string();
    assert_eq!(text(read("out")), right);
    assert_eq!(text(print::printed(&verdict(&slip(&code, enlarge(&code, &bans).unwrap())))), wrong, "{name}");
}

#[test]
fn bans_that_are_ignored() {
    taught_by_bans("bans-decipherable", bans_ignored, "decipherable,3", "ambiguous,010 0,1,0 2");
    taught_by_bans("bans-longer-message", bans_ignored, "ambiguous,01010 0,1,2 2,1,0", "ambiguous,010 0,1,0 2");
    taught_by_bans("bans-delay", bans_ignored, "decipherable,4", "decipherable,unbounded");
    taught_by_bans("bans-chain-told-apart", bans_ignored, "decipherable,4", "ambiguous,0120 0,1,2,0 3");
}

#[test]
fn copies_at_wrong_places() {
    taught_by_bans("bans-chain", copy_after_y_only, "ambiguous,012 0,1,2 3", "decipherable,3");
    taught_by_bans("bans-chain-told-apart", word_after_copies_of_y, "decipherable,4", "ambiguous,0120 0,1,2,0 3");
    taught_by_bans("bans-delay", word_stays_after_y, "decipherable,4", "ambiguous,011 0,2 0,2");
    taught_by_bans("bans-forbidden-anyway", word_stays_after_y, "decipherable,3", "ambiguous,1001 1,2 1,2");
    taught_by_bans("bans-never-adjacent", copy_may_begin, "decipherable,3", "ambiguous,0 0 0");
}

#[test]
fn readings_by_the_numbers_of_copies() {
    taught_by_bans("bans-order", copies_are_words, "ambiguous,10 0,1 0,2", "ambiguous,10 0,2 0,3");
    taught_by_bans("bans-chain", copies_are_words, "ambiguous,012 0,1,2 3", "ambiguous,012 0,4,5 3");
    taught_by_bans(
        "bans-equal-words",
        copies_are_words,
        "ambiguous,1000 2,0,0,0 2,0,0,1",
        "ambiguous,1000 2,3,0,0 2,3,0,1",
    );
}
