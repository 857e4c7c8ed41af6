//! The readings of a message: none, one, or the first two in word order.

use crate::code::{Code, Refusal};

#[derive(Clone, PartialEq, Eq, Debug)]
pub enum Readings {
    One(Vec<u8>),
    Two(Vec<u8>, Vec<u8>),
}

/// The readings of a message, or refusal 11, 12 or 14, the lowest first.
pub fn read(code: &Code, message: &[u8]) -> Result<Readings, Refusal> {
    if message.len() > Code::MAX_MESSAGE_SYMBOLS {
        return Err(Refusal::MessageLength);
    }
    if message.iter().any(|&symbol| symbol > 15) {
        return Err(Refusal::MessageSymbol);
    }
    first_two(code, message).ok_or(Refusal::NoReading)
}

/// The first two readings in word order, for a message of any length.
pub fn first_two(code: &Code, message: &[u8]) -> Option<Readings> {
    Reader::new(code).first_two(message)
}

/// What reading needs of a code, worked out once for any number of messages. A
/// set of words is a mask of bits.
///
/// Inside the reader, words and copies are numbered in the order of their
/// originals. Of a word and its copies only one may come next, so this is the
/// word order of readings.
pub struct Reader<'a> {
    words: Vec<&'a [u8]>,
    /// The original of each.
    originals: Vec<u8>,
    beginners: u32,
    followers: Vec<u32>,
}

impl<'a> Reader<'a> {
    pub fn new(code: &'a Code) -> Reader<'a> {
        let mut order: Vec<usize> = (0..code.words.len()).collect();
        order.sort_by_key(|&word| code.original(word));
        let choices = |last: Option<u8>| {
            let comes = order.iter().map(|&word| u32::from(code.may_come(word, last)));
            comes.enumerate().fold(0, |mask, (bit, comes)| mask | comes << bit)
        };
        let followers = order.iter().map(|&word| choices(Some(word as u8))).collect();
        let words = order.iter().map(|&word| &code.words[word][..]).collect();
        let originals = order.iter().map(|&word| code.original(word) as u8).collect();
        Reader { words, originals, beginners: choices(None), followers }
    }

    /// The first two readings in word order, for a message of any length.
    pub fn first_two(&self, message: &[u8]) -> Option<Readings> {
        let marked = Marked::new(self, message);
        let first = marked.lowest_from(Vec::new(), 0)?;
        Some(match marked.after(&first) {
            None => Readings::One(self.named(first)),
            Some(second) => Readings::Two(self.named(first), self.named(second)),
        })
    }

    /// The reading in original numbers.
    fn named(&self, reading: Vec<u8>) -> Vec<u8> {
        reading.into_iter().map(|word| self.originals[word as usize]).collect()
    }
}

/// A message: for each number of symbols read, which words may come next so
/// that the whole of it still has a reading.
struct Marked<'a> {
    reader: &'a Reader<'a>,
    next: Vec<u32>,
}

impl<'a> Marked<'a> {
    fn new(reader: &'a Reader<'a>, message: &[u8]) -> Marked<'a> {
        let mut next = vec![0u32; message.len()];
        for at in (0..message.len()).rev() {
            for (number, word) in reader.words.iter().enumerate() {
                if !message[at..].starts_with(word) {
                    continue;
                }
                let end = at + word.len();
                if end == message.len() || next[end] & reader.followers[number] != 0 {
                    next[at] |= 1 << number;
                }
            }
        }
        Marked { reader, next }
    }

    /// The words that may come after this reading of the first `at` symbols.
    fn choices(&self, reading: &[u8], at: usize) -> u32 {
        let allowed = reading.last().map_or(self.reader.beginners, |&y| self.reader.followers[y as usize]);
        self.next[at] & allowed
    }

    /// The reading carried on from `at` with the lowest word each time.
    fn lowest_from(&self, mut reading: Vec<u8>, mut at: usize) -> Option<Vec<u8>> {
        while at < self.next.len() {
            let choices = self.choices(&reading, at);
            if choices == 0 {
                return None;
            }
            let word = choices.trailing_zeros() as usize;
            reading.push(word as u8);
            at += self.reader.words[word].len();
        }
        Some(reading)
    }

    /// The reading next in word order: it leaves the given one as late as can
    /// be, there takes the next higher word, and is lowest from there on.
    fn after(&self, reading: &[u8]) -> Option<Vec<u8>> {
        let mut at = self.next.len();
        for step in (0..reading.len()).rev() {
            let word = reading[step] as usize;
            at -= self.reader.words[word].len();
            let higher = self.choices(&reading[..step], at) & (u32::MAX << word << 1);
            if higher != 0 {
                let word = higher.trailing_zeros() as usize;
                let mut start = reading[..step].to_vec();
                start.push(word as u8);
                return self.lowest_from(start, at + self.reader.words[word].len());
            }
        }
        None
    }
}
