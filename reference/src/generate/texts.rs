//! Random texts, and the buffers for splitting them.

use super::{length, permitted_sequence, short_message};
use crate::classes::{Classes, RESERVED};
use crate::code::Code;
use crate::encode::joined;
use crate::operations::Buffers;
use crate::random::Random;
use crate::split::MAX_TEXT_BYTES;

/// A text: words whose letters stand for messages of the code, or letters or
/// bytes of any kind; now and then about as long as a text may be.
pub fn text(random: &mut Random, code: &Code, classes: &Classes) -> Vec<u8> {
    let mut text = match random.below(16) {
        0 => Vec::new(),
        1 => (0..=255).collect(),
        2 => (0..random.below(60)).map(|_| random.below(256) as u8).collect(),
        3 => only(random, classes, true),
        4 => only(random, classes, false),
        5..=7 => words(random, classes, |random| only(random, classes, true)),
        _ => {
            let code = if random.one_in(4) { code.clone() } else { spellable(code, classes) };
            words(random, classes, |random| {
                let message = short_message(random, &code);
                spelled(random, classes, &message)
            })
        }
    };
    match random.below(400) {
        // A text that is too long costs nothing to split.
        0..=5 => fill_up(&mut text, MAX_TEXT_BYTES + 1),
        6 => fill_up(&mut text, MAX_TEXT_BYTES - random.below(2)),
        7 => text = long_word(random, code, classes),
        _ => {}
    }
    text
}

/// A few letters of any kind, or a few other bytes.
fn only(random: &mut Random, classes: &Classes, letters: bool) -> Vec<u8> {
    let bytes: Vec<u8> = (0..=255).filter(|&byte| classes.symbol(byte).is_some() == letters).collect();
    let most = *random.pick(&[2, 8, 20]);
    (0..random.between(1, most)).map(|_| *random.pick(&bytes)).collect()
}

/// A few words with other bytes between them, sometimes before and behind them too.
fn words(random: &mut Random, classes: &Classes, word: impl Fn(&mut Random) -> Vec<u8>) -> Vec<u8> {
    let mut text = if random.one_in(4) { parting(random, classes) } else { Vec::new() };
    for _ in 0..random.between(1, 5) {
        text.extend(word(random));
        text.extend(parting(random, classes));
    }
    if random.one_in(2) {
        text.extend(word(random));
    }
    text
}

/// What parts words: a space, any other bytes, or bytes that stand in the output of splitting too. By some classes a space is a letter.
fn parting(random: &mut Random, classes: &Classes) -> Vec<u8> {
    match random.below(4) {
        0 => b"\r\n".to_vec(),
        1 => only(random, classes, false),
        2 => (0..random.between(1, 3)).map(|_| *random.pick(&RESERVED)).collect(),
        _ => b" ".to_vec(),
    }
}

/// The code without the words that no letters spell: they may neither begin nor follow any.
fn spellable(code: &Code, classes: &Classes) -> Code {
    let mut code = code.clone();
    for word in 0..code.words.len() {
        if code.words[word].iter().any(|&symbol| !classes.0.contains(&Some(symbol))) {
            code.starts[word] = false;
            code.rows[word].fill(false);
        }
    }
    code
}

/// Letters for the symbols of a message. For a symbol that no letter stands for there is any letter.
pub fn spelled(random: &mut Random, classes: &Classes, message: &[u8]) -> Vec<u8> {
    let letters: Vec<u8> = (0..=255).filter(|&byte| classes.symbol(byte).is_some()).collect();
    let of: Vec<Vec<u8>> = (0..16).map(|symbol| classes.bytes(Some(symbol))).collect();
    let some = |symbol: u8| of.get(symbol as usize).filter(|some| !some.is_empty()).unwrap_or(&letters);
    message.iter().map(|&symbol| *random.pick(some(symbol))).collect()
}

/// A single word that is as long as a text may be, if the code has such long messages.
fn long_word(random: &mut Random, code: &Code, classes: &Classes) -> Vec<u8> {
    let mut message = joined(code, &permitted_sequence(random, &spellable(code, classes), MAX_TEXT_BYTES));
    message.truncate(MAX_TEXT_BYTES);
    spelled(random, classes, &message)
}

/// The text over and over, up to a length; the byte of a where it is empty.
fn fill_up(text: &mut Vec<u8>, length: usize) {
    if text.is_empty() {
        text.push(b'a');
    }
    *text = text.iter().copied().cycle().take(length).collect();
}

/// An output buffer and the other buffers for splitting a text. They hold all
/// kinds of entries, often small ones, which could be taken for something.
/// For a text that is too long they are often too short as well.
pub fn splitting_buffers(random: &mut Random, text: &[u8]) -> (Vec<u8>, Buffers) {
    let too_long = text.len() > MAX_TEXT_BYTES && random.one_in(2);
    let entries = if too_long { random.below(20) } else { text.len() };
    let output = noise(random, 2 * entries + 1, 255);
    let [message, first, second] = [(); 3].map(|()| {
        let most = *random.pick(&[1, 31, 255]);
        noise(random, entries, most)
    });
    let most = *random.pick(&[1, u64::from(u32::MAX), u64::MAX]);
    let working = (0..length(random, entries + 1)).map(|_| random.draw() & most).collect();
    (output, Buffers { message, first, second, working })
}

/// A buffer of any bytes up to the most, which is one less than a power of two.
fn noise(random: &mut Random, needed: usize, most: u8) -> Vec<u8> {
    (0..length(random, needed)).map(|_| random.draw() as u8 & most).collect()
}
