//! The proved library behind the trait of the reference, so that both can be
//! held against each other.

use crate::image;
use furlazon::{
    AMBIGUOUS, ANSWER_ENTRIES, CLASSES_BYTES, DELAY, ONE_READING, SEVERAL_READINGS, TABLE_BYTES, WITHOUT_BOUND,
};
use reference::classes::{Entries, OTHER};
use reference::code::Refusal;
use reference::operations::{Buffers, Operations, ReadingLengths, VerdictLengths};
use reference::table::Table;

pub struct Linked;

const REFUSALS: [Refusal; 21] = [
    Refusal::SheetLength,
    Refusal::SheetBytes,
    Refusal::RecordCount,
    Refusal::WordLength,
    Refusal::CodeLength,
    Refusal::FieldCount,
    Refusal::RowEntry,
    Refusal::NotFromSheet,
    Refusal::UnknownWord,
    Refusal::ForbiddenPair,
    Refusal::MessageLength,
    Refusal::MessageSymbol,
    Refusal::ShortBuffer,
    Refusal::NoReading,
    Refusal::StartField,
    Refusal::BanRecord,
    Refusal::BanLimit,
    Refusal::ClassRecord,
    Refusal::ClassRange,
    Refusal::ClassOverlap,
    Refusal::NoFiniteDelay,
];

/// The refusal with this number; none for 0.
pub fn refusal(number: u64) -> Option<Refusal> {
    match number {
        0 => None,
        _ => Some(*REFUSALS.get(number as usize - 1).expect("the number of a refusal")),
    }
}

/// What a lent entry holds before a call, so that a change shows.
const MARK: u64 = 0x5A5A_5A5A_5A5A_5A5A;

/// Runs a call with an answer buffer longer than needed. A refusal must leave
/// it as it was, a result must leave the entries past the answer as they were.
fn answer(call: impl FnOnce(&mut [u64]) -> u64) -> Result<[u64; ANSWER_ENTRIES], Refusal> {
    let mut entries = [MARK; ANSWER_ENTRIES + 2];
    let refused = refusal(call(&mut entries));
    let unchanged = if refused.is_some() { 0 } else { ANSWER_ENTRIES };
    assert!(entries[unchanged..].iter().all(|&entry| entry == MARK), "entries changed: {entries:?}, {refused:?}");
    match refused {
        Some(refusal) => Err(refusal),
        None => Ok(*entries.first_chunk().expect("an answer")),
    }
}

/// Runs a call that writes an image. A refusal leaves the buffer as it was;
/// the table of the trait is then the blank one.
fn table(call: impl FnOnce(&mut [u8]) -> u64) -> (Option<Refusal>, Table) {
    let mut image = [MARK as u8; TABLE_BYTES];
    let refused = refusal(call(&mut image));
    if refused.is_some() && image == [MARK as u8; TABLE_BYTES] {
        return (refused, Table::BLANK);
    }
    (refused, image::unpack(&image))
}

/// Runs a call that writes classes into a buffer longer than needed, whose
/// last entries must be left as they were. A refusal leaves the whole of it as
/// it was; the classes of the trait are then those without a letter.
fn classes(call: impl FnOnce(&mut [u8]) -> u64) -> (Option<Refusal>, Entries) {
    let mut buffer = [MARK as u8; CLASSES_BYTES + 2];
    let refused = refusal(call(&mut buffer));
    let (entries, rest) = buffer.split_first_chunk::<CLASSES_BYTES>().expect("more entries than needed");
    assert_eq!(rest, [MARK as u8; 2], "entries changed past the classes, {refused:?}");
    if refused.is_some() && *entries == [MARK as u8; CLASSES_BYTES] {
        return (refused, [OTHER; CLASSES_BYTES]);
    }
    (refused, *entries)
}

impl Operations for Linked {
    fn take_in(&mut self, sheet: &[u8]) -> (Option<Refusal>, Table) {
        table(|image| furlazon::take_in(sheet, image))
    }

    fn turkish(&mut self) -> Table {
        match table(furlazon::turkish) {
            (None, table) => table,
            other => panic!("not the built-in code: {other:?}"),
        }
    }

    fn enlarge(&mut self, words: &Table, list: &[u8]) -> (Option<Refusal>, Table) {
        let words = image::pack(words);
        table(|image| furlazon::enlarge(&words, list, image))
    }

    fn take_classes(&mut self, sheet: &[u8]) -> (Option<Refusal>, Entries) {
        classes(|entries| furlazon::take_classes(sheet, entries))
    }

    fn turkish_classes(&mut self) -> Entries {
        match classes(furlazon::turkish_classes) {
            (None, entries) => entries,
            other => panic!("not the built-in classes: {other:?}"),
        }
    }

    fn encode(&mut self, table: &Table, sequence: &[u8], message: &mut [u8]) -> Result<usize, Refusal> {
        let table = image::pack(table);
        match answer(|entries| furlazon::encode(&table, sequence, message, entries))? {
            [length, 0, 0, 0] => Ok(length as usize),
            other => panic!("not the answer to an encoding: {other:?}"),
        }
    }

    fn read(&mut self, table: &Table, message: &[u8], buffers: &mut Buffers) -> Result<ReadingLengths, Refusal> {
        let table = image::pack(table);
        let Buffers { first, second, working, .. } = buffers;
        match answer(|entries| furlazon::read(&table, message, first, second, working, entries))? {
            [ONE_READING, length, 0, 0] => Ok(ReadingLengths::One(length as usize)),
            [SEVERAL_READINGS, first, second, 0] => Ok(ReadingLengths::Two(first as usize, second as usize)),
            other => panic!("not the answer to a reading: {other:?}"),
        }
    }

    fn split(
        &mut self,
        table: &Table,
        classes: &Entries,
        text: &[u8],
        output: &mut [u8],
        buffers: &mut Buffers,
    ) -> Result<usize, Refusal> {
        let table = image::pack(table);
        let Buffers { message, first, second, working } = buffers;
        match answer(|entries| {
            furlazon::split(&table, classes, text, output, message, first, second, working, entries)
        })? {
            [length, 0, 0, 0] => Ok(length as usize),
            other => panic!("not the answer to a splitting: {other:?}"),
        }
    }

    fn verdict(&mut self, table: &Table, buffers: &mut Buffers) -> Result<VerdictLengths, Refusal> {
        let table = image::pack(table);
        let Buffers { message, first, second, working } = buffers;
        match answer(|entries| furlazon::verdict(&table, message, first, second, working, entries))? {
            [AMBIGUOUS, lengths @ ..] => {
                let [message, first, second] = lengths.map(|length| length as usize);
                Ok(VerdictLengths::Ambiguous { message, first, second })
            }
            [DELAY, delay, 0, 0] => Ok(VerdictLengths::Delay(delay as usize)),
            [WITHOUT_BOUND, 0, 0, 0] => Ok(VerdictLengths::Unbounded),
            other => panic!("not a verdict: {other:?}"),
        }
    }

    fn next(&mut self, table: &Table, message: &[u8], working: &mut [u64]) -> Result<u8, Refusal> {
        let table = image::pack(table);
        match answer(|entries| furlazon::next(&table, message, working, entries))? {
            [word @ 0..=255, 0, 0, 0] => Ok(word as u8),
            other => panic!("not a next word: {other:?}"),
        }
    }
}
