//! The next word of a message that is still coming in, from no more of its
//! symbols than the delay.

use crate::code::{Code, Refusal};
use crate::pairs::Places;

/// The word that begins the permitted sequences whose messages have the same
/// first symbols, as many as the delay; or refusal 12 or 14, tested in this
/// order. A message that is shorter is known whole.
pub fn next(code: &Code, delay: usize, message: &[u8]) -> Result<u8, Refusal> {
    let symbols = &message[..message.len().min(delay)];
    if symbols.iter().any(|&symbol| symbol > 15) {
        return Err(Refusal::MessageSymbol);
    }
    if message.is_empty() {
        return Err(Refusal::NoReading);
    }
    let words = first_words(code, symbols, message.len() < delay);
    assert!(words.len() < 2, "so many symbols as the delay tell the word: {words:?}");
    words.first().copied().ok_or(Refusal::NoReading)
}

/// The words that begin a permitted sequence, not the empty one, whose message
/// begins with these symbols; or is these symbols, where they are the whole of
/// it. A copy may not begin, so the numbers are original ones.
pub fn first_words(code: &Code, symbols: &[u8], whole: bool) -> Vec<u8> {
    let places = Places::new(code);
    let begins = |&word: &usize| match symbols.split_first() {
        None => !whole,
        Some((&first, _)) if first != code.words[word][0] => false,
        // A word that is begun can go on to its end. The whole of a message ends with a word.
        Some((_, later)) => {
            bits(led(&places, places.first[word], later)).any(|place| !whole || places.is_end[place as usize])
        }
    };
    (0..code.words.len()).filter(|&word| code.starts[word]).filter(begins).map(|word| word as u8).collect()
}

/// All places to which symbols lead from one, each as a bit.
fn led(places: &Places, from: u8, symbols: &[u8]) -> u128 {
    symbols.iter().fold(1 << from, |reached, &symbol| {
        let leads = bits(reached).flat_map(|place| places.leads(place)).filter(|lead| lead.0 == symbol);
        leads.fold(0, |reached, lead| reached | 1 << lead.1)
    })
}

/// The places whose bits are set.
fn bits(mut set: u128) -> impl Iterator<Item = u8> {
    std::iter::from_fn(move || {
        let place = set.trailing_zeros();
        set &= set.wrapping_sub(1);
        (place < u128::BITS).then_some(place as u8)
    })
}
