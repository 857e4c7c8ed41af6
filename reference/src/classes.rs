//! Letter classes: which bytes of a text are letters, and the symbols that
//! they stand for. Taking in a class sheet: refusals 1 and 18 to 20, the lowest
//! first.

use crate::code::Refusal;
use crate::sheet::{bytes_fit, is_digit, records, symbol};
use crate::split::DOT;
use std::ops::RangeInclusive;

pub const MAX_SHEET_BYTES: usize = 4_096;

/// Bytes that are never letters: what splitting puts into a text.
pub const RESERVED: [u8; 5] = [DOT, b'(', b')', b'[', b']'];

/// The entry of a byte that is no letter.
pub const OTHER: u8 = 16;

/// Classes in the form in which programs hand them to each other: for each byte its symbol or [`OTHER`].
pub type Entries = [u8; 256];

/// The symbol that each byte stands for in a text; none for a byte that is no letter.
#[derive(Clone, PartialEq, Eq, Debug)]
pub struct Classes(pub [Option<u8>; 256]);

impl Classes {
    /// Without a letter; no sheet gives them.
    pub const NONE: Classes = Classes([None; 256]);

    pub fn symbol(&self, byte: u8) -> Option<u8> {
        self.0[byte as usize]
    }

    /// The bytes that stand for a symbol, or those that are no letters.
    pub fn bytes(&self, symbol: Option<u8>) -> Vec<u8> {
        (0..=255).filter(|&byte| self.symbol(byte) == symbol).collect()
    }

    pub fn entries(&self) -> Entries {
        self.0.map(|symbol| symbol.unwrap_or(OTHER))
    }

    /// The classes with these entries; none if no accepted sheet gives them. A
    /// sheet has a record, so it gives at least one letter; otherwise a record
    /// for each letter would do.
    pub fn given(entries: &Entries) -> Option<Classes> {
        let classes = Classes(entries.map(|entry| (entry < OTHER).then_some(entry)));
        let fits = entries.iter().all(|&entry| entry <= OTHER)
            && RESERVED.iter().all(|&byte| classes.symbol(byte).is_none())
            && classes != Classes::NONE;
        fits.then_some(classes)
    }

    /// A record for each longest run of bytes that stand for the same symbol.
    pub fn runs(&self) -> Vec<Record> {
        let letters: Vec<(u8, u8)> = (0..=255).filter_map(|byte| Some((byte, self.symbol(byte)?))).collect();
        let runs = letters.chunk_by(|&(byte, symbol), &next| (byte + 1, symbol) == next);
        runs.map(|run| Record { lowest: run[0].0, highest: run[run.len() - 1].0, symbol: run[0].1 }).collect()
    }
}

/// A record of a class sheet.
#[derive(Clone, Copy, PartialEq, Eq, Debug)]
pub struct Record {
    pub lowest: u8,
    pub highest: u8,
    pub symbol: u8,
}

impl Record {
    /// The bytes that it takes in; none where the lowest is above the highest.
    pub fn bytes(&self) -> RangeInclusive<u8> {
        self.lowest..=self.highest
    }
}

/// The classes that a sheet gives, or the lowest refusal that fits the sheet.
/// Each refusal is tested over the whole sheet before the next one.
pub fn take_in(sheet: &[u8]) -> Result<Classes, Refusal> {
    if sheet.is_empty() || sheet.len() > MAX_SHEET_BYTES {
        return Err(Refusal::SheetLength);
    }
    if !bytes_fit(sheet, is_digit) {
        return Err(Refusal::ClassRecord);
    }
    let fields = records(sheet);
    let records: Option<Vec<Record>> = fields.iter().map(|fields| record(fields)).collect();
    let records = records.ok_or(Refusal::ClassRecord)?;
    let takes_in_reserved = |record: &Record| RESERVED.iter().any(|byte| record.bytes().contains(byte));
    if records.iter().any(takes_in_reserved) {
        return Err(Refusal::ClassRecord);
    }
    if records.iter().any(|record| record.lowest > record.highest) {
        return Err(Refusal::ClassRange);
    }
    let mut classes = Classes::NONE;
    for record in records {
        for byte in record.bytes() {
            if classes.0[byte as usize].replace(record.symbol).is_some() {
                return Err(Refusal::ClassOverlap);
            }
        }
    }
    Ok(classes)
}

/// The record of fields of digits; none where they are not two digits, two digits and one digit.
fn record(fields: &[&[u8]]) -> Option<Record> {
    let [[high, low], [other_high, other_low], [digit]] = *fields else { return None };
    let byte = |high: u8, low: u8| 16 * symbol(high) + symbol(low);
    Some(Record { lowest: byte(*high, *low), highest: byte(*other_high, *other_low), symbol: symbol(*digit) })
}

/// The sheet with these records, each ended by CR LF.
pub fn write(records: &[Record]) -> Vec<u8> {
    let line = |record: &Record| format!("{:02X},{:02X},{:X}\r\n", record.lowest, record.highest, record.symbol);
    records.iter().flat_map(|record| line(record).into_bytes()).collect()
}

/// Classes from a hand-written sheet such as "61,61,0 62,64,1"; the text is trusted.
pub fn of(sheet: &str) -> Classes {
    let sheet = sheet.split_whitespace().collect::<Vec<_>>().join("\r\n");
    take_in(sheet.as_bytes()).expect("a class sheet")
}
