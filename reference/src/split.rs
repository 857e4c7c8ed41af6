//! A text split into syllables: a word is a longest run of letters, and its
//! letters stand for the symbols of a message. Refusal 11 for a text that is
//! too long.

use crate::classes::Classes;
use crate::code::{Code, Refusal};
use crate::read::{Reader, Readings};
use std::ops::Range;

pub const MAX_TEXT_BYTES: usize = 16_384;

/// What stands between two syllables: a middle dot.
pub const DOT: u8 = 0xB7;

/// How a word is read.
#[derive(Clone, PartialEq, Eq, Debug)]
pub enum Kind {
    /// In one way; the letters of each syllable, counted.
    Split(Vec<usize>),
    None,
    Several,
}

/// A word, where it stands in its text and how it is read.
#[derive(Clone, PartialEq, Eq, Debug)]
pub struct Word {
    pub place: Range<usize>,
    pub kind: Kind,
}

/// The words of a text of any length, in order.
pub fn words(code: &Code, classes: &Classes, text: &[u8]) -> Vec<Word> {
    let reader = Reader::new(code);
    let mut words = Vec::new();
    let mut end = 0;
    for run in text.chunk_by(|&byte, &next| classes.symbol(byte).is_some() == classes.symbol(next).is_some()) {
        let start = end;
        end += run.len();
        let symbols: Option<Vec<u8>> = run.iter().map(|&byte| classes.symbol(byte)).collect();
        if let Some(message) = symbols {
            let kind = match reader.first_two(&message) {
                None => Kind::None,
                Some(Readings::Two(..)) => Kind::Several,
                Some(Readings::One(reading)) => {
                    Kind::Split(reading.iter().map(|&word| code.words[word as usize].len()).collect())
                }
            };
            words.push(Word { place: start..end, kind });
        }
    }
    words
}

/// The text with its words split, or refusal 11.
pub fn split(code: &Code, classes: &Classes, text: &[u8]) -> Result<Vec<u8>, Refusal> {
    if text.len() > MAX_TEXT_BYTES {
        return Err(Refusal::MessageLength);
    }
    let mut output = Vec::with_capacity(2 * text.len() + 1);
    let mut end = 0;
    for Word { place, kind } in words(code, classes, text) {
        output.extend(&text[end..place.start]);
        end = place.end;
        let letters = &text[place];
        match kind {
            Kind::Split(lengths) => dotted(&mut output, letters, &lengths),
            Kind::None => enclosed(&mut output, b'(', letters, b')'),
            Kind::Several => enclosed(&mut output, b'[', letters, b']'),
        }
    }
    output.extend(&text[end..]);
    Ok(output)
}

/// Writes the syllables with a dot between them.
fn dotted(output: &mut Vec<u8>, mut letters: &[u8], lengths: &[usize]) {
    for (number, &length) in lengths.iter().enumerate() {
        if number > 0 {
            output.push(DOT);
        }
        let (syllable, rest) = letters.split_at(length);
        output.extend(syllable);
        letters = rest;
    }
}

fn enclosed(output: &mut Vec<u8>, open: u8, letters: &[u8], close: u8) {
    output.push(open);
    output.extend(letters);
    output.push(close);
}
