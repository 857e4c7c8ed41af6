//! The message of a sequence of word numbers. They are original ones, also where the code has copies.

use crate::code::{Code, Refusal};

/// May the first word begin, and may each other one follow, as the copy that
/// fits where there is one? The numbers are original words of the code.
pub fn permitted(code: &Code, sequence: &[u8]) -> bool {
    let mut last = None;
    sequence.iter().all(|&word| {
        let behind = last.map(|last: u8| code.original(last as usize));
        let next = behind.map_or(word as usize, |behind| code.fitting(word as usize, behind));
        let comes = code.may_come(next, last);
        last = Some(next as u8);
        comes
    })
}

/// The symbols of the words, joined in order.
pub fn joined(code: &Code, sequence: &[u8]) -> Vec<u8> {
    sequence.iter().flat_map(|&word| code.words[word as usize].iter().copied()).collect()
}

/// The message of a sequence, or refusal 9, 10 or 11, the lowest first.
pub fn encode(code: &Code, sequence: &[u8]) -> Result<Vec<u8>, Refusal> {
    if sequence.iter().any(|&word| word as usize >= code.originals()) {
        return Err(Refusal::UnknownWord);
    }
    if !permitted(code, sequence) {
        return Err(Refusal::ForbiddenPair);
    }
    let length: usize = sequence.iter().map(|&word| code.words[word as usize].len()).sum();
    if length > Code::MAX_MESSAGE_SYMBOLS {
        return Err(Refusal::MessageLength);
    }
    Ok(joined(code, sequence))
}
