//! The operations with their lent buffers: refusals 8 to 14 and 21, and what each
//! buffer holds afterwards; enlarging a table by a ban list; taking in class
//! sheets; the built-in code and the built-in classes.

use crate::classes::{self, Classes, Entries, OTHER};
use crate::code::{Code, Refusal};
use crate::read::{self, Readings};
use crate::table::Table;
use crate::verdict::{self, Verdict};
use crate::{bans, copies, letters, next, split, turkish};

/// Entries of a verdict's message buffer and of each of its reading buffers.
pub const VERDICT_ENTRIES: usize = 8_384;
/// Entries of a verdict's working buffer.
pub const VERDICT_WORKING: usize = 16_384;

/// Lengths of the only reading or of the first two, in words.
#[derive(Clone, Copy, PartialEq, Eq, Debug)]
pub enum ReadingLengths {
    One(usize),
    Two(usize, usize),
}

/// A verdict with the lengths of what stands in the buffers.
#[derive(Clone, Copy, PartialEq, Eq, Debug)]
pub enum VerdictLengths {
    Ambiguous { message: usize, first: usize, second: usize },
    Delay(usize),
    Unbounded,
}

/// Buffers lent to a reading, a splitting or a verdict. A reading leaves `message` alone.
#[derive(Clone, PartialEq, Eq, Debug)]
pub struct Buffers {
    pub message: Vec<u8>,
    pub first: Vec<u8>,
    pub second: Vec<u8>,
    pub working: Vec<u64>,
}

/// A program that offers the ten operations. The reference is one; a linked
/// library becomes another by wrapping its functions.
pub trait Operations {
    /// The table of a sheet, the blank one with a refusal.
    fn take_in(&mut self, sheet: &[u8]) -> (Option<Refusal>, Table);
    /// The table of the built-in code.
    fn turkish(&mut self) -> Table;
    /// The table with the copies that a ban list needs, the blank one with a refusal.
    fn enlarge(&mut self, table: &Table, list: &[u8]) -> (Option<Refusal>, Table);
    /// The classes of a class sheet, without a letter with a refusal.
    fn take_classes(&mut self, sheet: &[u8]) -> (Option<Refusal>, Entries);
    /// The built-in classes.
    fn turkish_classes(&mut self) -> Entries;
    /// Writes the message of a sequence and gives its length.
    fn encode(&mut self, table: &Table, sequence: &[u8], message: &mut [u8]) -> Result<usize, Refusal>;
    /// Writes the readings of a message and gives their lengths.
    fn read(&mut self, table: &Table, message: &[u8], buffers: &mut Buffers) -> Result<ReadingLengths, Refusal>;
    /// Writes a text with its words split and gives its new length.
    fn split(
        &mut self,
        table: &Table,
        classes: &Entries,
        text: &[u8],
        output: &mut [u8],
        buffers: &mut Buffers,
    ) -> Result<usize, Refusal>;
    /// Gives the verdict; an ambiguous one writes its message and readings.
    fn verdict(&mut self, table: &Table, buffers: &mut Buffers) -> Result<VerdictLengths, Refusal>;
    /// Names the next word of a message. The buffer is the working buffer of a verdict.
    fn next(&mut self, table: &Table, message: &[u8], working: &mut [u64]) -> Result<u8, Refusal>;
}

pub struct Reference;

impl Operations for Reference {
    fn take_in(&mut self, sheet: &[u8]) -> (Option<Refusal>, Table) {
        match crate::sheet::take_in(sheet) {
            Ok(code) => (None, Table::of(&code)),
            Err(refusal) => (Some(refusal), Table::BLANK),
        }
    }

    fn turkish(&mut self) -> Table {
        Table::of(&turkish::code())
    }

    fn enlarge(&mut self, table: &Table, list: &[u8]) -> (Option<Refusal>, Table) {
        match enlarged(table, list) {
            Ok(code) => (None, Table::of(&code)),
            Err(refusal) => (Some(refusal), Table::BLANK),
        }
    }

    fn take_classes(&mut self, sheet: &[u8]) -> (Option<Refusal>, Entries) {
        match classes::take_in(sheet) {
            Ok(classes) => (None, classes.entries()),
            Err(refusal) => (Some(refusal), [OTHER; 256]),
        }
    }

    fn turkish_classes(&mut self) -> Entries {
        letters::TURKISH.entries()
    }

    fn encode(&mut self, table: &Table, sequence: &[u8], message: &mut [u8]) -> Result<usize, Refusal> {
        let code = table.code().ok_or(Refusal::NotFromSheet)?;
        let joined = crate::encode::encode(&code, sequence)?;
        if message.len() < joined.len() {
            return Err(Refusal::ShortBuffer);
        }
        Ok(put(&joined, message))
    }

    fn read(&mut self, table: &Table, message: &[u8], buffers: &mut Buffers) -> Result<ReadingLengths, Refusal> {
        let code = table.code().ok_or(Refusal::NotFromSheet)?;
        let readings = read::read(&code, message);
        let too_short = buffers.first.len() < message.len()
            || buffers.second.len() < message.len()
            || buffers.working.len() < message.len() + 1;
        match readings {
            Err(refusal) if refusal < Refusal::ShortBuffer => return Err(refusal),
            _ if too_short => return Err(Refusal::ShortBuffer),
            _ => buffers.working.fill(0),
        }
        Ok(match readings? {
            Readings::One(only) => ReadingLengths::One(put(&only, &mut buffers.first)),
            Readings::Two(first, second) => {
                ReadingLengths::Two(put(&first, &mut buffers.first), put(&second, &mut buffers.second))
            }
        })
    }

    fn split(
        &mut self,
        table: &Table,
        classes: &Entries,
        text: &[u8],
        output: &mut [u8],
        buffers: &mut Buffers,
    ) -> Result<usize, Refusal> {
        let code = table.code().ok_or(Refusal::NotFromSheet)?;
        let classes = Classes::given(classes).ok_or(Refusal::NotFromSheet)?;
        let split = split::split(&code, &classes, text)?;
        let Buffers { message, first, second, working } = buffers;
        let bytes = [message, first, second];
        let too_short = output.len() < 2 * text.len() + 1
            || bytes.iter().any(|buffer| buffer.len() < text.len())
            || working.len() < text.len() + 1;
        if too_short {
            return Err(Refusal::ShortBuffer);
        }
        bytes.into_iter().for_each(|buffer| buffer.fill(0));
        working.fill(0);
        Ok(put(&split, output))
    }

    fn verdict(&mut self, table: &Table, buffers: &mut Buffers) -> Result<VerdictLengths, Refusal> {
        let code: Code = table.code().ok_or(Refusal::NotFromSheet)?;
        let entries = [&buffers.message, &buffers.first, &buffers.second];
        if entries.iter().any(|buffer| buffer.len() < VERDICT_ENTRIES) || buffers.working.len() < VERDICT_WORKING {
            return Err(Refusal::ShortBuffer);
        }
        buffers.working.fill(0);
        Ok(match verdict::verdict(&code) {
            Verdict::Delay(delay) => VerdictLengths::Delay(delay),
            Verdict::Unbounded => VerdictLengths::Unbounded,
            Verdict::Ambiguous { message, first, second } => VerdictLengths::Ambiguous {
                message: put(&message, &mut buffers.message),
                first: put(&first, &mut buffers.first),
                second: put(&second, &mut buffers.second),
            },
        })
    }

    fn next(&mut self, table: &Table, message: &[u8], working: &mut [u64]) -> Result<u8, Refusal> {
        next_by_delay(table, message, working, |code| verdict::verdict(code).delay())
    }
}

/// The next word by the delay of the code, which is asked for where it is needed; none where it is not finite.
pub fn next_by_delay(
    table: &Table,
    message: &[u8],
    working: &mut [u64],
    delay: impl FnOnce(&Code) -> Option<usize>,
) -> Result<u8, Refusal> {
    let code = table.code().ok_or(Refusal::NotFromSheet)?;
    if message.len() > Code::MAX_MESSAGE_SYMBOLS {
        return Err(Refusal::MessageLength);
    }
    if working.len() < VERDICT_WORKING {
        return Err(Refusal::ShortBuffer);
    }
    working.fill(0);
    let delay = delay(&code).ok_or(Refusal::NoFiniteDelay)?;
    next::next(&code, delay, message)
}

/// The code in a table, enlarged; or refusal 1, 8, 16 or 17, the lowest first.
fn enlarged(table: &Table, list: &[u8]) -> Result<Code, Refusal> {
    if list.len() > Code::MAX_BANS_BYTES {
        return Err(Refusal::SheetLength);
    }
    let code = table.code().filter(|code| code.copies.is_empty()).ok_or(Refusal::NotFromSheet)?;
    copies::enlarge(&code, &bans::take_in(list, code.words.len())?)
}

/// Writes a list at the start of a buffer and gives its length.
fn put(list: &[u8], buffer: &mut [u8]) -> usize {
    buffer[..list.len()].copy_from_slice(list);
    list.len()
}
