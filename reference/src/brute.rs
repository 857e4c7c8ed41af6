//! Verdicts and next words straight from the definitions, for tiny codes.
//!
//! [`by_sequences`] lists every permitted sequence up to a length and compares
//! messages. [`by_prefixes`] lists every beginning of a message and keeps all
//! sequences that begin so. Neither knows pairs, graphs or circles. A ban that
//! looks two words back is looked up for every three words in a row; no word
//! is copied.
//!
//! How far is far enough? Take two permitted sequences that share an opening,
//! their first words, and then go on with different words; follow them along a
//! shared beginning. After each symbol, note for both the word being read and
//! how many of its symbols are read; and also the word before it, where some
//! ban has these two as its Y and Z. What may come later depends on the note
//! alone. Let s be the number of notes: the symbols of all words, and for each
//! different Y, Z of the bans the symbols of Z once more. There are
//! P = s(s + 1)/2 unordered pairs of notes.
//!
//! - In a shortest ambiguous message no pair of notes comes twice, so it has at
//!   most P symbols. If one did, the symbols between could be cut out, and two
//!   sequences would be left with one shorter message. They still differ if
//!   both notings are within the opening or both after it. And it is not one
//!   within and one after: within the opening the two notes are the same, and
//!   two sequences that have the same note after it have begun its word
//!   together, so the message was ambiguous before that word.
//! - If two sequences share P + 1 symbols after the opening, a pair of notes
//!   comes twice there, and the symbols between can be repeated at will: there
//!   is no delay. So a delay is at most P + 1.
//! - What may come after an opening depends on its last note alone. Where a
//!   note at a word's end comes twice in it, all after the first time up to the
//!   second can be cut out. So openings in which no such note comes twice are
//!   enough for the delay, and the least opening to each last note is enough
//!   for the least message: a shorter or earlier opening makes a shorter or
//!   earlier message.

use crate::bans::Ban;
use crate::code::Code;
use crate::encode::joined;
use crate::verdict::Verdict;
use std::cmp::Reverse;
use std::collections::{BTreeSet, HashMap};

/// A code without copies, and bans that look two words back.
#[derive(Clone, Copy)]
struct Rules<'a> {
    code: &'a Code,
    bans: &'a [Ban],
}

/// A word at its end, and the word before it if some ban has these two as its Z and Y.
type Note = (u8, Option<u8>);

impl Rules<'_> {
    /// May this word come after this sequence?
    fn may_come(self, word: usize, sequence: &[u8]) -> bool {
        let banned = match *sequence {
            [.., y, z] => self.bans.contains(&Ban { x: word as u8, y, z }),
            _ => false,
        };
        !banned && self.code.may_come(word, sequence.last().copied())
    }

    /// The note at the end of a sequence; none at the end of the empty one.
    fn last_note(self, sequence: &[u8]) -> Option<Note> {
        let before = match *sequence {
            [.., y, z] => self.bans.iter().any(|ban| (ban.y, ban.z) == (y, z)).then_some(y),
            _ => None,
        };
        sequence.last().map(|&word| (word, before))
    }

    /// s of the note above.
    fn notes(self) -> usize {
        let pairs: BTreeSet<(u8, u8)> = self.bans.iter().map(|ban| (ban.y, ban.z)).collect();
        self.code.symbols() + pairs.iter().map(|&(_, z)| self.code.words[z as usize].len()).sum::<usize>()
    }

    /// P of the note above.
    fn pairs_of_notes(self) -> usize {
        self.notes() * (self.notes() + 1) / 2
    }

    /// The words that may come after this sequence.
    fn next_words(self, sequence: &[u8]) -> Vec<usize> {
        (0..self.code.words.len()).filter(|&word| self.may_come(word, sequence)).collect()
    }

    /// The permitted opening, and all that may come after it with at most `length` symbols; each with the opening.
    fn continued(self, opening: &[u8], length: usize) -> Vec<Vec<u8>> {
        let mut all: Vec<(Vec<u8>, usize)> = vec![(opening.to_vec(), 0)];
        let mut at = 0;
        while at < all.len() {
            for word in 0..self.code.words.len() {
                let symbols = all[at].1 + self.code.words[word].len();
                if symbols <= length && self.may_come(word, &all[at].0) {
                    all.push(([&all[at].0[..], &[word as u8]].concat(), symbols));
                }
            }
            at += 1;
        }
        all.into_iter().map(|(sequence, _)| sequence).collect()
    }

    /// The permitted sequences in which no note at a word's end comes twice, the empty one included.
    fn openings(self) -> Vec<Vec<u8>> {
        let mut openings = self.continued(&[], self.notes());
        openings.retain(|sequence| {
            let notes: BTreeSet<_> = (1..=sequence.len()).map(|end| self.last_note(&sequence[..end])).collect();
            notes.len() == sequence.len()
        });
        openings
    }

    /// Do the first `n` symbols after the opening tell the next word? A sequence
    /// may be cut after the word that brings its `n`-th symbol, so messages a word
    /// longer than `n` are long enough.
    fn suffices(self, opening: &[u8], n: usize) -> bool {
        let longest = self.code.words.iter().map(Vec::len).max().unwrap_or(0);
        let mut next_word: HashMap<Vec<u8>, u8> = HashMap::new();
        let continued = self.continued(opening, n + longest);
        continued.iter().map(|sequence| &sequence[opening.len()..]).filter(|rest| !rest.is_empty()).all(|rest| {
            let mut message = joined(self.code, rest);
            message.truncate(n);
            *next_word.entry(message).or_insert(rest[0]) == rest[0]
        })
    }

    /// The empty sequence, and for each note that ends a permitted sequence the
    /// one with the least message: the shortest, the earliest in symbol order
    /// among equals. The least is taken first each time, so the first to end with
    /// a note is the least of its kind.
    fn least_openings(self) -> Vec<Vec<u8>> {
        let mut openings: Vec<Vec<u8>> = Vec::new();
        let mut waiting = BTreeSet::from([(0, Vec::new(), Vec::new())]);
        while let Some((_, _, opening)) = waiting.pop_first() {
            if openings.iter().any(|other| self.last_note(other) == self.last_note(&opening)) {
                continue;
            }
            for word in self.next_words(&opening) {
                let longer = [&opening[..], &[word as u8]].concat();
                let message = joined(self.code, &longer);
                waiting.insert((message.len(), message, longer));
            }
            openings.push(opening);
        }
        openings
    }

    /// Grows the beginnings after an opening and keeps those that leave the next word open.
    fn doubt_after(self, opening: &[u8], most: usize) -> Option<Doubt> {
        if self.next_words(opening).len() < 2 {
            return Some(Doubt::Ends(0));
        }
        let mut kept = vec![Beginning::of(self.code, opening)];
        for length in 1..=self.pairs_of_notes() + 1 {
            let longer =
                |beginning: &Beginning| (0..16).map(|symbol| beginning.grown(self, symbol)).collect::<Vec<_>>();
            kept = kept.iter().flat_map(longer).collect();
            kept.retain(|beginning| !beginning.begun.is_empty() && beginning.word_open(opening.len()));
            if kept.is_empty() {
                return Some(Doubt::Ends(length));
            }
            if kept.len() > most {
                return None;
            }
            if let Some(beginning) = kept.iter().find(|beginning| beginning.whole_sequences(self.code).len() > 1) {
                let message = beginning.message.clone();
                return Some(Doubt::Ambiguous(Reverse((message.len(), message))));
            }
        }
        Some(Doubt::Lasts)
    }
}

/// All readings of a message, in word order, by listing all sequences.
pub fn readings(code: &Code, bans: &[Ban], message: &[u8]) -> Vec<Vec<u8>> {
    let mut readings = Rules { code, bans }.continued(&[], message.len());
    readings.retain(|sequence| joined(code, sequence) == message);
    readings.sort();
    readings
}

/// Is the sequence permitted, word by word? The numbers are words of the code.
pub fn permitted(code: &Code, bans: &[Ban], sequence: &[u8]) -> bool {
    let rules = Rules { code, bans };
    (0..sequence.len()).all(|at| rules.may_come(sequence[at] as usize, &sequence[..at]))
}

/// The verdict by listing all sequences. The list grows as a power of its
/// length, so this is for codes of about four notes.
pub fn by_sequences(code: &Code, bans: &[Ban]) -> Verdict {
    let rules = Rules { code, bans };
    let most = rules.pairs_of_notes();
    let mut by_message: HashMap<Vec<u8>, Vec<Vec<u8>>> = HashMap::new();
    for sequence in rules.continued(&[], most) {
        by_message.entry(joined(code, &sequence)).or_default().push(sequence);
    }
    let several = by_message.into_iter().filter(|(_, readings)| readings.len() > 1);
    if let Some((message, mut readings)) = several.min_by_key(|(message, _)| (message.len(), message.clone())) {
        readings.sort();
        return Verdict::Ambiguous { message, first: readings[0].clone(), second: readings[1].clone() };
    }
    let openings = rules.openings();
    match (0..=most + 1).find(|&n| openings.iter().all(|opening| rules.suffices(opening, n))) {
        Some(delay) => Verdict::Delay(delay),
        None => Verdict::Unbounded,
    }
}

/// The words that begin a permitted non-empty sequence, by the first `n` symbols
/// of its message, or by all of them where it has fewer: two messages share
/// their first `n` symbols when these are one list. A message with more symbols
/// may be cut after the word that brings the `n`-th.
pub fn next_by_sequences(code: &Code, bans: &[Ban], n: usize) -> HashMap<Vec<u8>, BTreeSet<u8>> {
    let longest = code.words.iter().map(Vec::len).max().unwrap_or(0);
    let mut words: HashMap<Vec<u8>, BTreeSet<u8>> = HashMap::new();
    let sequences = Rules { code, bans }.continued(&[], n + longest);
    for sequence in sequences {
        let mut message = joined(code, &sequence);
        message.truncate(n);
        if let Some(&first) = sequence.first() {
            words.entry(message).or_default().insert(first);
        }
    }
    words
}

/// The same for one message, by growing its beginning symbol by symbol with all sequences that begin so.
pub fn next_by_prefixes(code: &Code, bans: &[Ban], n: usize, message: &[u8]) -> BTreeSet<u8> {
    let rules = Rules { code, bans };
    let symbols = message.iter().take(n);
    let beginning = symbols.fold(Beginning::of(code, &[]), |beginning, &symbol| beginning.grown(rules, symbol));
    if n == 0 {
        return rules.next_words(&[]).into_iter().map(|word| word as u8).collect();
    }
    let sequences = if message.len() < n {
        beginning.whole_sequences(code)
    } else {
        beginning.begun.into_iter().map(|begun| begun.sequence).collect()
    };
    sequences.iter().filter_map(|sequence| sequence.first().copied()).collect()
}

/// A sequence whose last word is read up to `read` symbols.
#[derive(Clone)]
struct Begun {
    sequence: Vec<u8>,
    read: usize,
}

impl Begun {
    /// Is no word half read?
    fn at_end(&self, code: &Code) -> bool {
        self.sequence.last().is_none_or(|&word| self.read == code.words[word as usize].len())
    }

    /// All ways to carry on with this symbol.
    fn carried_on(&self, rules: Rules, symbol: u8) -> Vec<Begun> {
        let words = &rules.code.words;
        if let (Some(&word), false) = (self.sequence.last(), self.at_end(rules.code)) {
            let fits = words[word as usize][self.read] == symbol;
            let next = Begun { sequence: self.sequence.clone(), read: self.read + 1 };
            return if fits { vec![next] } else { Vec::new() };
        }
        (0..words.len())
            .filter(|&x| words[x][0] == symbol && rules.may_come(x, &self.sequence))
            .map(|x| Begun { sequence: [&self.sequence[..], &[x as u8]].concat(), read: 1 })
            .collect()
    }
}

/// A beginning of a message with all sequences that begin so.
struct Beginning {
    message: Vec<u8>,
    begun: Vec<Begun>,
}

impl Beginning {
    /// The message of a sequence, known to be begun by this sequence.
    fn of(code: &Code, sequence: &[u8]) -> Beginning {
        let read = sequence.last().map_or(0, |&word| code.words[word as usize].len());
        Beginning { message: joined(code, sequence), begun: vec![Begun { sequence: sequence.to_vec(), read }] }
    }

    fn grown(&self, rules: Rules, symbol: u8) -> Beginning {
        let begun = self.begun.iter().flat_map(|begun| begun.carried_on(rules, symbol)).collect();
        Beginning { message: [&self.message[..], &[symbol]].concat(), begun }
    }

    /// Do the sequences go on with different words after so many?
    fn word_open(&self, at: usize) -> bool {
        self.begun.iter().any(|begun| begun.sequence[at] != self.begun[0].sequence[at])
    }

    fn whole_sequences(&self, code: &Code) -> Vec<Vec<u8>> {
        let mut whole: Vec<Vec<u8>> =
            self.begun.iter().filter(|begun| begun.at_end(code)).map(|begun| begun.sequence.clone()).collect();
        whole.sort();
        whole
    }
}

/// How long the word after an opening stays open; the worst comes last.
#[derive(PartialEq, Eq, PartialOrd, Ord)]
enum Doubt {
    /// So many symbols tell it.
    Ends(usize),
    Lasts,
    /// The symbols of an ambiguous message, counted, and the message, opening included. The least is the worst.
    Ambiguous(Reverse<(usize, Vec<u8>)>),
}

/// The verdict by growing beginnings of messages symbol by symbol after each
/// opening. The readings of a least ambiguous message share one of these
/// openings and go on with different words, so it is among what is found. None
/// when more than `most` beginnings must be kept.
pub fn by_prefixes(code: &Code, bans: &[Ban], most: usize) -> Option<Verdict> {
    let rules = Rules { code, bans };
    let openings = rules.least_openings();
    let doubts = openings.iter().map(|opening| rules.doubt_after(opening, most)).collect::<Option<Vec<_>>>()?;
    Some(match doubts.into_iter().max()? {
        Doubt::Ends(delay) => Verdict::Delay(delay),
        Doubt::Lasts => Verdict::Unbounded,
        Doubt::Ambiguous(Reverse((_, message))) => {
            let start = Beginning::of(code, &[]);
            let all = message.iter().fold(start, |beginning, &symbol| beginning.grown(rules, symbol));
            let [first, second, ..] = &all.whole_sequences(code)[..] else { unreachable!("two readings") };
            Verdict::Ambiguous { first: first.clone(), second: second.clone(), message }
        }
    })
}
