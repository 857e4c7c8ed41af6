//! The proved library as Rust functions on slices.
//!
//! The declarations and constants below repeat `include/furlazon.h`, under the
//! same names without `FURLAZON_`; the header says what each function needs,
//! what it writes and which refusals it has. The functions ask nothing of
//! their arguments, so each wrapper only hands pointers and lengths over.
//! Nothing but the archive is needed.

/// The version of the header that is repeated here.
pub const VERSION: &str = env!("CARGO_PKG_VERSION");

// Limits.

/// A symbol is a number below it.
pub const ALPHABET: usize = 16;
/// Words of a code.
pub const CODE_WORDS: usize = 32;
/// Symbols of a word.
pub const WORD_SYMBOLS: usize = 16;
/// Symbols of all words together.
pub const CODE_SYMBOLS: usize = 128;
/// Bytes of a sheet.
pub const SHEET_BYTES: usize = 4_096;
/// Bytes of a ban list.
pub const BANS_BYTES: usize = 4_096;
/// Bytes of a class sheet.
pub const CLASS_SHEET_BYTES: usize = 4_096;
/// Symbols of a message, for encoding, reading and the next word.
pub const MESSAGE_SYMBOLS: usize = 16_384;
/// Bytes of a text, for splitting.
pub const TEXT_BYTES: usize = 16_384;

// Refusals.

/// A sheet, a ban list or a class sheet of a wrong length.
pub const REFUSED_SHEET_LENGTH: u64 = 1;
/// A wrong byte in a sheet, or CR and LF not together.
pub const REFUSED_SHEET_BYTES: u64 = 2;
/// Too many records.
pub const REFUSED_RECORD_COUNT: u64 = 3;
/// A first field that is empty or too long.
pub const REFUSED_WORD_LENGTH: u64 = 4;
/// Too many symbols in all.
pub const REFUSED_CODE_LENGTH: u64 = 5;
/// A wrong number of fields.
pub const REFUSED_FIELD_COUNT: u64 = 6;
/// A row entry other than the single digit 0 or 1.
pub const REFUSED_ROW_ENTRY: u64 = 7;
/// A table or classes that no accepted sheet gives.
pub const REFUSED_NOT_FROM_SHEET: u64 = 8;
/// A word number that is not in the table.
pub const REFUSED_UNKNOWN_WORD: u64 = 9;
/// A pair, a first word or a triple that is not permitted.
pub const REFUSED_FORBIDDEN_PAIR: u64 = 10;
/// A message or a text that is too long.
pub const REFUSED_MESSAGE_LENGTH: u64 = 11;
/// A message symbol that is not below [`ALPHABET`].
pub const REFUSED_MESSAGE_SYMBOL: u64 = 12;
/// A buffer that is too short.
pub const REFUSED_SHORT_BUFFER: u64 = 13;
/// No permitted sequence has this message, or no word is the next one.
pub const REFUSED_NO_READING: u64 = 14;
/// A start field other than the single digit 0 or 1.
pub const REFUSED_START_FIELD: u64 = 15;
/// A wrong byte in a ban list, or a record that is no ban.
pub const REFUSED_BAN_RECORD: u64 = 16;
/// Too many words or symbols with the copies.
pub const REFUSED_BAN_LIMIT: u64 = 17;
/// A wrong byte or record in a class sheet.
pub const REFUSED_CLASS_RECORD: u64 = 18;
/// A record of a class sheet whose lowest byte is above its highest.
pub const REFUSED_CLASS_RANGE: u64 = 19;
/// A byte in two records of a class sheet.
pub const REFUSED_CLASS_OVERLAP: u64 = 20;
/// A table without a finite delay.
pub const REFUSED_NO_FINITE_DELAY: u64 = 21;

// What buffers need.

/// Bytes of a table's image.
pub const TABLE_BYTES: usize = 1_666;
/// Bytes of classes.
pub const CLASSES_BYTES: usize = 256;
/// The class of a byte that is no letter.
pub const OTHER: u8 = 16;
/// Entries of an answer.
pub const ANSWER_ENTRIES: usize = 4;
/// Entries that a verdict needs in `message`, `first` and `second` each.
pub const VERDICT_ENTRIES: usize = 8_384;
/// Entries that a verdict and the next word need in `work`.
pub const VERDICT_WORK: usize = 16_384;

/// Entries that reading a message of `n` symbols needs in `first` and `second` each.
pub const fn read_entries(n: usize) -> usize {
    n
}

/// Entries that reading a message of `n` symbols needs in `work`.
pub const fn read_work(n: usize) -> usize {
    n + 1
}

/// Bytes that splitting a text of `n` bytes needs in `out`.
pub const fn split_out(n: usize) -> usize {
    2 * n + 1
}

/// Entries that splitting a text of `n` bytes needs in `message`, `first` and `second` each.
pub const fn split_entries(n: usize) -> usize {
    n
}

/// Entries that splitting a text of `n` bytes needs in `work`.
pub const fn split_work(n: usize) -> usize {
    n + 1
}

// The first entry of an answer.

/// Of a reading: the message has one reading.
pub const ONE_READING: u64 = 1;
/// Of a reading: the message has several.
pub const SEVERAL_READINGS: u64 = 2;
/// Of a verdict: ambiguous.
pub const AMBIGUOUS: u64 = 1;
/// Of a verdict: decipherable, with this delay.
pub const DELAY: u64 = 2;
/// Of a verdict: decipherable, without bound on the delay.
pub const WITHOUT_BOUND: u64 = 3;

extern "C" {
    fn furlazon_take_in(sheet: *const u8, sheet_length: usize, table: *mut u8, table_length: usize) -> u64;
    fn furlazon_turkish(table: *mut u8, table_length: usize) -> u64;
    fn furlazon_enlarge(
        table: *const u8,
        table_length: usize,
        bans: *const u8,
        bans_length: usize,
        enlarged: *mut u8,
        enlarged_length: usize,
    ) -> u64;
    fn furlazon_take_classes(sheet: *const u8, sheet_length: usize, classes: *mut u8, classes_length: usize) -> u64;
    fn furlazon_turkish_classes(classes: *mut u8, classes_length: usize) -> u64;
    fn furlazon_encode(
        table: *const u8,
        table_length: usize,
        words: *const u8,
        words_length: usize,
        message: *mut u8,
        message_length: usize,
        answer: *mut u64,
        answer_length: usize,
    ) -> u64;
    fn furlazon_read(
        table: *const u8,
        table_length: usize,
        message: *const u8,
        message_length: usize,
        first: *mut u8,
        first_length: usize,
        second: *mut u8,
        second_length: usize,
        work: *mut u64,
        work_length: usize,
        answer: *mut u64,
        answer_length: usize,
    ) -> u64;
    fn furlazon_split(
        table: *const u8,
        table_length: usize,
        classes: *const u8,
        classes_length: usize,
        text: *const u8,
        text_length: usize,
        out: *mut u8,
        out_length: usize,
        message: *mut u8,
        message_length: usize,
        first: *mut u8,
        first_length: usize,
        second: *mut u8,
        second_length: usize,
        work: *mut u64,
        work_length: usize,
        answer: *mut u64,
        answer_length: usize,
    ) -> u64;
    fn furlazon_verdict(
        table: *const u8,
        table_length: usize,
        message: *mut u8,
        message_length: usize,
        first: *mut u8,
        first_length: usize,
        second: *mut u8,
        second_length: usize,
        work: *mut u64,
        work_length: usize,
        answer: *mut u64,
        answer_length: usize,
    ) -> u64;
    fn furlazon_next(
        table: *const u8,
        table_length: usize,
        message: *const u8,
        message_length: usize,
        work: *mut u64,
        work_length: usize,
        answer: *mut u64,
        answer_length: usize,
    ) -> u64;
}

/// Takes in a sheet and writes its table's image. 0, or the refusal's number.
pub fn take_in(sheet: &[u8], table: &mut [u8]) -> u64 {
    // SAFETY: each pointer comes from a slice with its length, and no two slices overlap.
    unsafe { furlazon_take_in(sheet.as_ptr(), sheet.len(), table.as_mut_ptr(), table.len()) }
}

/// Writes the image of the built-in code of the twelve Turkish types. 0, or the refusal's number.
pub fn turkish(table: &mut [u8]) -> u64 {
    // SAFETY: as above.
    unsafe { furlazon_turkish(table.as_mut_ptr(), table.len()) }
}

/// Enlarges a table by a ban list and writes the enlarged table's image. 0, or the refusal's number.
pub fn enlarge(table: &[u8], bans: &[u8], enlarged: &mut [u8]) -> u64 {
    // SAFETY: as above.
    unsafe {
        furlazon_enlarge(table.as_ptr(), table.len(), bans.as_ptr(), bans.len(), enlarged.as_mut_ptr(), enlarged.len())
    }
}

/// Takes in a class sheet and writes its classes. 0, or the refusal's number.
pub fn take_classes(sheet: &[u8], classes: &mut [u8]) -> u64 {
    // SAFETY: as above.
    unsafe { furlazon_take_classes(sheet.as_ptr(), sheet.len(), classes.as_mut_ptr(), classes.len()) }
}

/// Writes the built-in classes of the Turkish letters. 0, or the refusal's number.
pub fn turkish_classes(classes: &mut [u8]) -> u64 {
    // SAFETY: as above.
    unsafe { furlazon_turkish_classes(classes.as_mut_ptr(), classes.len()) }
}

/// Encodes a sequence of word numbers. 0, or the refusal's number.
pub fn encode(table: &[u8], words: &[u8], message: &mut [u8], answer: &mut [u64]) -> u64 {
    // SAFETY: as above.
    unsafe {
        furlazon_encode(
            table.as_ptr(),
            table.len(),
            words.as_ptr(),
            words.len(),
            message.as_mut_ptr(),
            message.len(),
            answer.as_mut_ptr(),
            answer.len(),
        )
    }
}

/// Reads a message. 0, or the refusal's number.
pub fn read(
    table: &[u8],
    message: &[u8],
    first: &mut [u8],
    second: &mut [u8],
    work: &mut [u64],
    answer: &mut [u64],
) -> u64 {
    // SAFETY: as above.
    unsafe {
        furlazon_read(
            table.as_ptr(),
            table.len(),
            message.as_ptr(),
            message.len(),
            first.as_mut_ptr(),
            first.len(),
            second.as_mut_ptr(),
            second.len(),
            work.as_mut_ptr(),
            work.len(),
            answer.as_mut_ptr(),
            answer.len(),
        )
    }
}

/// Splits the words of a text, whose letters the classes tell. 0, or the refusal's number.
#[allow(clippy::too_many_arguments)]
pub fn split(
    table: &[u8],
    classes: &[u8],
    text: &[u8],
    out: &mut [u8],
    message: &mut [u8],
    first: &mut [u8],
    second: &mut [u8],
    work: &mut [u64],
    answer: &mut [u64],
) -> u64 {
    // SAFETY: as above.
    unsafe {
        furlazon_split(
            table.as_ptr(),
            table.len(),
            classes.as_ptr(),
            classes.len(),
            text.as_ptr(),
            text.len(),
            out.as_mut_ptr(),
            out.len(),
            message.as_mut_ptr(),
            message.len(),
            first.as_mut_ptr(),
            first.len(),
            second.as_mut_ptr(),
            second.len(),
            work.as_mut_ptr(),
            work.len(),
            answer.as_mut_ptr(),
            answer.len(),
        )
    }
}

/// Gives the verdict on a table. 0, or the refusal's number.
pub fn verdict(
    table: &[u8],
    message: &mut [u8],
    first: &mut [u8],
    second: &mut [u8],
    work: &mut [u64],
    answer: &mut [u64],
) -> u64 {
    // SAFETY: as above.
    unsafe {
        furlazon_verdict(
            table.as_ptr(),
            table.len(),
            message.as_mut_ptr(),
            message.len(),
            first.as_mut_ptr(),
            first.len(),
            second.as_mut_ptr(),
            second.len(),
            work.as_mut_ptr(),
            work.len(),
            answer.as_mut_ptr(),
            answer.len(),
        )
    }
}

/// Names the next word of a message that is still coming in. 0, or the refusal's number.
pub fn next(table: &[u8], message: &[u8], work: &mut [u64], answer: &mut [u64]) -> u64 {
    // SAFETY: as above.
    unsafe {
        furlazon_next(
            table.as_ptr(),
            table.len(),
            message.as_ptr(),
            message.len(),
            work.as_mut_ptr(),
            work.len(),
            answer.as_mut_ptr(),
            answer.len(),
        )
    }
}
