//! Bans that look two words back, and taking in a list of them: refusals 1 and
//! 16, the lower first.

use crate::code::{Code, Refusal};
use crate::sheet::{bytes_fit, records};

/// Word `x` never follows word `y` and then word `z`.
#[derive(Clone, Copy, PartialEq, Eq, PartialOrd, Ord, Hash, Debug)]
pub struct Ban {
    pub x: u8,
    pub y: u8,
    pub z: u8,
}

/// The bans of a list on a code of so many words, in the list's order, or the
/// lowest refusal that fits the list.
pub fn take_in(list: &[u8], words: usize) -> Result<Vec<Ban>, Refusal> {
    if list.len() > Code::MAX_BANS_BYTES {
        return Err(Refusal::SheetLength);
    }
    if list.is_empty() {
        return Ok(Vec::new());
    }
    if !bytes_fit(list, |byte| byte.is_ascii_digit()) {
        return Err(Refusal::BanRecord);
    }
    records(list).iter().map(|record| ban(record, words).ok_or(Refusal::BanRecord)).collect()
}

/// The ban of a record; none where it is not three words of the code, or its second and third are one word.
fn ban(record: &[&[u8]], words: usize) -> Option<Ban> {
    let [x, y, z] = record else { return None };
    let ban = Ban { x: number(x, words)?, y: number(y, words)?, z: number(z, words)? };
    (ban.y != ban.z).then_some(ban)
}

/// The word number that a field writes. Written out again it shows leading zeros.
fn number(field: &[u8], words: usize) -> Option<u8> {
    let text = std::str::from_utf8(field).ok()?;
    let number: u8 = text.parse().ok()?;
    ((number as usize) < words && number.to_string() == text).then_some(number)
}

/// The list with these bans, each record ended by CR LF.
pub fn write(bans: &[Ban]) -> Vec<u8> {
    bans.iter().flat_map(|Ban { x, y, z }| format!("{x},{y},{z}\r\n").into_bytes()).collect()
}

/// Bans from a hand-written list such as "0,1,2 3,1,2"; the text is trusted.
pub fn of(list: &str) -> Vec<Ban> {
    let list = list.split_whitespace().collect::<Vec<_>>().join("\r\n");
    take_in(list.as_bytes(), Code::MAX_WORDS).expect("a list of bans")
}
