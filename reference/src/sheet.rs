//! Taking in a code sheet: refusals 1 to 7 and 15, the lowest first.

use crate::code::{Code, Refusal};

/// The code a sheet describes, or the lowest refusal that fits the sheet.
/// Each refusal is tested over the whole sheet before the next one.
pub fn take_in(sheet: &[u8]) -> Result<Code, Refusal> {
    if sheet.is_empty() || sheet.len() > Code::MAX_SHEET_BYTES {
        return Err(Refusal::SheetLength);
    }
    if !bytes_fit(sheet, is_digit) {
        return Err(Refusal::SheetBytes);
    }
    let records = records(sheet);
    let n = records.len();
    if n > Code::MAX_WORDS {
        return Err(Refusal::RecordCount);
    }
    let word_fits = |word: &[u8]| (1..=Code::MAX_WORD_SYMBOLS).contains(&word.len());
    if !records.iter().all(|record| word_fits(record[0])) {
        return Err(Refusal::WordLength);
    }
    if records.iter().map(|record| record[0].len()).sum::<usize>() > Code::MAX_SYMBOLS {
        return Err(Refusal::CodeLength);
    }
    let every_record_has = |fields: usize| records.iter().all(|record| record.len() == fields);
    let marked = every_record_has(n + 2);
    if !marked && !every_record_has(n + 1) {
        return Err(Refusal::FieldCount);
    }
    let entries = if marked { 2 } else { 1 };
    let fits = |field: &&[u8]| **field == *b"0" || **field == *b"1";
    if !records.iter().all(|record| record[entries..].iter().all(fits)) {
        return Err(Refusal::RowEntry);
    }
    if marked && !records.iter().all(|record| fits(&record[1])) {
        return Err(Refusal::StartField);
    }
    Ok(Code {
        words: records.iter().map(|record| record[0].iter().map(|&b| symbol(b)).collect()).collect(),
        starts: records.iter().map(|record| !marked || record[1] == b"1").collect(),
        rows: records.iter().map(|record| record[entries..].iter().map(|entry| *entry == b"1").collect()).collect(),
        copies: Vec::new(),
    })
}

/// Is it a hexadecimal digit, 0-9 or A-F?
pub(crate) fn is_digit(byte: u8) -> bool {
    byte.is_ascii_digit() || (b'A'..=b'F').contains(&byte)
}

/// Only digits, commas and line ends, and every CR and LF part of a CR LF?
pub(crate) fn bytes_fit(sheet: &[u8], is_digit: impl Fn(u8) -> bool) -> bool {
    (0..sheet.len()).all(|i| match sheet[i] {
        b',' => true,
        b'\r' => sheet.get(i + 1) == Some(&b'\n'),
        b'\n' => i > 0 && sheet[i - 1] == b'\r',
        byte => is_digit(byte),
    })
}

/// The records as fields. CR LF parts records; one after the last is optional.
pub(crate) fn records(sheet: &[u8]) -> Vec<Vec<&[u8]>> {
    let body = sheet.strip_suffix(b"\r\n").unwrap_or(sheet);
    body.split(|&b| b == b'\n')
        .map(|line| line.strip_suffix(b"\r").unwrap_or(line))
        .map(|line| line.split(|&b| b == b',').collect())
        .collect()
}

/// The number a hexadecimal digit stands for.
pub(crate) fn symbol(digit: u8) -> u8 {
    match digit {
        b'0'..=b'9' => digit - b'0',
        _ => digit - b'A' + 10,
    }
}

/// The sheet that gives this code with the fewest fields: with start fields
/// only where some word may not begin. Each record is ended by CR LF.
pub fn write(code: &Code) -> Vec<u8> {
    written(code, code.starts.contains(&false))
}

/// The sheet with start fields that gives this code, each record ended by CR LF.
pub fn write_with_starts(code: &Code) -> Vec<u8> {
    written(code, true)
}

fn written(code: &Code, with_starts: bool) -> Vec<u8> {
    let mut sheet = Vec::new();
    for ((word, start), row) in code.words.iter().zip(&code.starts).zip(&code.rows) {
        sheet.extend(word.iter().map(|&s| crate::print::digit(s)));
        for &field in with_starts.then_some(start).into_iter().chain(row) {
            sheet.extend([b',', if field { b'1' } else { b'0' }]);
        }
        sheet.extend(b"\r\n");
    }
    sheet
}
