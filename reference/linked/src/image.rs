//! The image of a table: for each of the 32 words its 16 symbols and its
//! length, then the 32 rows of 32 entries, then the 32 start marks, then the
//! count. Of the copies: the number of words that are none, then for each of
//! the 32 words the one that it is a copy of, then the one after which it
//! stands.

use furlazon::TABLE_BYTES;
use reference::code::Code;
use reference::table::Table;

const WORD: usize = Code::MAX_WORD_SYMBOLS + 1;
const ROWS: usize = Code::MAX_WORDS * WORD;
const STARTS: usize = ROWS + Code::MAX_WORDS * Code::MAX_WORDS;
const COUNT: usize = STARTS + Code::MAX_WORDS;
const ORIGINALS: usize = COUNT + 1;
const ORIGINS: usize = ORIGINALS + 1;
const BEHIND: usize = ORIGINS + Code::MAX_WORDS;

/// A number as a byte. Every number past 255 is too long for a word and too
/// many for a code, and so is 255.
fn byte(number: usize) -> u8 {
    u8::try_from(number).unwrap_or(u8::MAX)
}

pub fn pack(table: &Table) -> [u8; TABLE_BYTES] {
    let mut image = [0; TABLE_BYTES];
    for (word, to) in table.words.iter().zip(image.chunks_exact_mut(WORD)) {
        to[..WORD - 1].copy_from_slice(&word.symbols);
        to[WORD - 1] = byte(word.len);
    }
    for (row, to) in table.rows.iter().zip(image[ROWS..STARTS].chunks_exact_mut(Code::MAX_WORDS)) {
        to.copy_from_slice(&row.entries);
    }
    image[STARTS..COUNT].copy_from_slice(&table.starts);
    image[COUNT] = byte(table.count);
    image[ORIGINALS] = byte(table.originals);
    image[ORIGINS..BEHIND].copy_from_slice(&table.origins);
    image[BEHIND..].copy_from_slice(&table.behind);
    image
}

pub fn unpack(image: &[u8; TABLE_BYTES]) -> Table {
    let mut table = Table::BLANK;
    for (word, from) in table.words.iter_mut().zip(image.chunks_exact(WORD)) {
        word.symbols.copy_from_slice(&from[..WORD - 1]);
        word.len = from[WORD - 1] as usize;
    }
    for (row, from) in table.rows.iter_mut().zip(image[ROWS..STARTS].chunks_exact(Code::MAX_WORDS)) {
        row.entries.copy_from_slice(from);
    }
    table.starts.copy_from_slice(&image[STARTS..COUNT]);
    table.count = image[COUNT] as usize;
    table.originals = image[ORIGINALS] as usize;
    table.origins.copy_from_slice(&image[ORIGINS..BEHIND]);
    table.behind.copy_from_slice(&image[BEHIND..]);
    table
}
