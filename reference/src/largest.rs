//! Codes of 32 words and 128 symbols that make a verdict work hard.
//!
//! The first two set two tracks of words against each other: no word of one
//! track may follow a word of the other, so two sequences that start in
//! different tracks stay in them. Both are filled up to the limits with words
//! that begin with symbols the tracks don't use; none of those begins another,
//! so they cause no doubt.

use crate::code::Code;
use crate::pairs::explore;
use crate::random::Random;
use crate::rivals::Rivals;

/// A long ambiguous message. A text of period 5 is cut into words by two
/// rounds, one of 40 symbols and one of 45, each forced by the bans. The words
/// of the first round start at the phases 0, 1, 2 of the text, those of the
/// second at 0, 3, 4: two words can only start or end together where both
/// rounds do. That comes after 360 symbols, the least common multiple.
pub fn ambiguous() -> Code {
    let text = |phase: usize, length: usize| (phase..phase + length).map(|i| u8::from(i % 5 == 4)).collect();
    let words = vec![text(0, 16), text(1, 11), text(2, 13), text(0, 13), text(3, 16), text(4, 16)];
    let next_in_round = |x: usize, y: usize| x / 3 == y / 3 && x % 3 == (y + 1) % 3;
    filled(words, next_in_round)
}

/// A large finite delay. The first track spells rounds of 42 symbols, a 1 and
/// then zeros, in three forced words. The second track reads the zeros nine at
/// a time and the 1 by a word that begins with the zeros left over. Each such
/// word takes so many zeros after the 1 that another number is left over in
/// the next round. Six numbers come in turn; the seventh has no word.
pub fn delay() -> Code {
    let zeros = |count: usize| vec![0u8; count];
    let round = 16 + 11 + 15;
    let mut words = vec![[vec![1], zeros(15)].concat(), zeros(11), zeros(15), zeros(9)];
    let left_over = [8, 1, 2, 3, 4, 5, 7];
    for turn in left_over.windows(2) {
        let taken = (round - 1 - turn[1]) % 9;
        words.push([zeros(turn[0]), vec![1], zeros(taken)].concat());
    }
    filled(words, |x, y| if x < 3 { y < 3 && x == (y + 1) % 3 } else { y >= 3 })
}

/// Without bound, with many pairs: no bans, and no word is the end of another,
/// so a message can be read from its last symbol backwards. Read forwards, the
/// first word can stay open for ever. Of many random codes of this kind over
/// three symbols, the one with the most pairs.
pub fn unbounded() -> Code {
    let mut random = Random(1);
    let codes = (0..500).map(|_| suffix_code(&mut random, Code::MAX_WORDS, Code::MAX_SYMBOLS));
    let graph = |code: &Code| explore(code, &Rivals::of(code));
    let unbounded = codes.filter(|code| graph(code).longest_path().is_none());
    unbounded.max_by_key(|code| graph(code).pairs.len()).expect("one of them is without bound")
}

/// A code without bans over three symbols in which no word is the end of
/// another. A tree of word ends is grown until it has `count` leaves, then
/// words are lengthened at the front up to `symbols` symbols in all. Only ends
/// of fewer than four symbols branch, so 32 leaves have at most 122 symbols.
pub fn suffix_code(random: &mut Random, count: usize, symbols: usize) -> Code {
    let mut words: Vec<Vec<u8>> = vec![vec![0], vec![1], vec![2]];
    while words.len() < count {
        let at = random.below(words.len());
        if words[at].len() < 4 {
            let end = words.swap_remove(at);
            words.extend((0..3).map(|symbol| [&[symbol], &end[..]].concat()));
        }
    }
    words.truncate(count);
    let mut used: usize = words.iter().map(Vec::len).sum();
    while used < symbols.min(count * Code::MAX_WORD_SYMBOLS) {
        let at = random.below(words.len());
        if words[at].len() < Code::MAX_WORD_SYMBOLS {
            words[at].insert(0, random.below(3) as u8);
            used += 1;
        }
    }
    let rows = vec![vec![true; words.len()]; words.len()];
    Code::new(words, rows)
}

/// The words of the tracks, with the followers given, filled up to 32 words
/// and 128 symbols by words of one and two symbols from 2 on. Those may stand
/// anywhere.
fn filled(mut words: Vec<Vec<u8>>, may_follow: impl Fn(usize, usize) -> bool) -> Code {
    let tracks = words.len();
    let words_left = Code::MAX_WORDS - tracks;
    let symbols_left = Code::MAX_SYMBOLS - words.iter().map(Vec::len).sum::<usize>();
    let of_two = symbols_left - words_left;
    let of_one = words_left - of_two;
    words.extend((0..of_one).map(|i| vec![2 + i as u8]));
    words.extend((0..of_two).map(|i| vec![(2 + of_one + i / 16) as u8, (i % 16) as u8]));
    let entry = |x: usize, y: usize| x >= tracks || y >= tracks || may_follow(x, y);
    let rows = (0..words.len()).map(|x| (0..words.len()).map(|y| entry(x, y)).collect()).collect();
    Code::new(words, rows)
}
