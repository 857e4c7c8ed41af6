//! Random class sheets, sound and damaged, and classes to split texts by.

use super::{replace_once, shuffle};
use crate::classes::{take_in, write, Classes, Entries, Record, MAX_SHEET_BYTES, OTHER, RESERVED};
use crate::letters::{with_r_apart, TURKISH};
use crate::random::Random;

/// The longest runs of bytes that may be letters, by their lowest and highest byte.
const RUNS: [(u8, u8); 5] = [(0x00, 0x27), (0x2A, 0x5A), (0x5C, 0x5C), (0x5E, 0xB6), (0xB8, 0xFF)];

/// A class sheet that is accepted. The last line end is sometimes left out.
pub fn class_sheet(random: &mut Random) -> Vec<u8> {
    let records = records(random);
    written(random, records)
}

fn written(random: &mut Random, mut records: Vec<Record>) -> Vec<u8> {
    if random.one_in(2) {
        shuffle(random, &mut records);
    }
    let mut sheet = write(&records);
    if random.one_in(4) {
        sheet.truncate(sheet.len() - 2);
    }
    sheet
}

/// Records that no refusal fits: Turkish letters, every byte that may be a letter, single letters, or ranges.
fn records(random: &mut Random) -> Vec<Record> {
    match random.below(12) {
        0 => TURKISH.runs(),
        1 => with_r_apart().runs(),
        2 => RUNS.map(|(lowest, highest)| Record { lowest, highest, symbol: random.below(3) as u8 }).to_vec(),
        3 => pieces(random, 1, 1),
        4 => pieces(random, 1, 12),
        5 => vec![pieces(random, 30, 8)[0]],
        _ => {
            let (most, one_in) = (*random.pick(&[1, 2, 5, 20, 100]), *random.pick(&[1, 2, 4, 12]));
            pieces(random, most, one_in)
        }
    }
}

/// Neighbouring ranges of up to so many bytes each, over all bytes that may be
/// letters. One in so many is kept, at least one.
fn pieces(random: &mut Random, most: usize, one_in: usize) -> Vec<Record> {
    let kinds = *random.pick(&[1, 2, 2, 3, 4, 16]);
    let mut records = Vec::new();
    while records.is_empty() {
        for (first, last) in RUNS {
            let mut next = first as usize;
            while next <= last as usize {
                let highest = (next + random.below(most)).min(last as usize);
                if random.one_in(one_in) {
                    let symbol = random.below(kinds) as u8;
                    records.push(Record { lowest: next as u8, highest: highest as u8, symbol });
                }
                next = highest + 1;
            }
        }
    }
    records
}

/// A class sheet with damages to its records, to its bytes or to both, or one built at a limit. It may still be acceptable.
pub fn damaged_class_sheet(random: &mut Random) -> Vec<u8> {
    let (to_records, to_bytes) = match random.below(8) {
        0 => return class_sheet_at_a_limit(random),
        1..=4 => (random.between(1, 2), 0),
        5 | 6 => (0, random.between(1, 2)),
        _ => (1, 1),
    };
    let mut records = records(random);
    (0..to_records).for_each(|_| damage_records(random, &mut records));
    let mut sheet = written(random, records);
    (0..to_bytes).for_each(|_| damage_bytes(random, &mut sheet));
    sheet
}

/// One more record, so that one of the refusals 18 to 20 holds: it takes in a
/// byte that is never a letter, or stands upside down, there too, or takes in
/// what another does.
fn damage_records(random: &mut Random, records: &mut Vec<Record>) {
    let other = records[random.below(records.len())];
    let reserved = *random.pick(&RESERVED);
    let (below, above) = (reserved - random.between(1, 20) as u8, reserved + random.between(1, 20) as u8);
    let from = |random: &mut Random, low: u8, high: u8| random.between(low as usize, high as usize) as u8;
    let (first, last) = (run_of(other.lowest).0, run_of(other.highest).1);
    let (lowest, highest) = match random.below(13) {
        0 => (reserved, reserved),
        1 => (below, reserved),
        2 => (reserved, above),
        3 => (below, above),
        4 => (above, below),
        5 => (above, reserved),
        6 => (reserved, below),
        7 => (below, below - 1),
        8 => (other.highest.max(1), other.lowest.min(other.highest.max(1) - 1)),
        9 => (other.lowest, other.highest),
        10 => (other.highest, from(random, other.highest, last)),
        11 => (from(random, first, other.lowest), other.lowest),
        _ => (from(random, first, other.lowest), from(random, other.highest, last)),
    };
    let symbol = if random.one_in(2) { other.symbol } else { random.below(16) as u8 };
    records.push(Record { lowest, highest, symbol });
}

/// The run in which a byte stands; the byte itself where it is never a letter.
fn run_of(byte: u8) -> (u8, u8) {
    RUNS.into_iter().find(|&(first, last)| (first..=last).contains(&byte)).unwrap_or((byte, byte))
}

/// One damage at a random place: to bytes, line ends, fields or digits.
fn damage_bytes(random: &mut Random, sheet: &mut Vec<u8>) {
    let at = random.below(sheet.len() + 1);
    let byte = *random.pick(b"0123456789ABCDEF,,,\r\n\r\nafgG\"; \x00\xEF");
    let is_digit = |byte: u8| byte.is_ascii_hexdigit();
    match random.below(18) {
        0 => sheet.insert(at, byte),
        1 if at < sheet.len() => sheet[at] = byte,
        2 if at < sheet.len() => drop(sheet.remove(at)),
        3 => drop(sheet.splice(at..at, *b"\r\n")),
        4 => sheet.extend(b"\r\n"),
        5 => replace_once(random, sheet, b"\r\n", b"\n"),
        6 => replace_once(random, sheet, b"\r\n", b"\r"),
        7 => replace_once(random, sheet, b"\r\n", b"\r\n\r\n"),
        8 => replace_once(random, sheet, b"\r\n", b",0\r\n"),
        9 => replace_once(random, sheet, b",", b""),
        10 => replace_once(random, sheet, b",", b",,"),
        11 => sheet.truncate(at),
        12 | 13 => {
            if let Some(at) = place(random, sheet, |byte| byte.is_ascii_uppercase()) {
                sheet[at].make_ascii_lowercase();
            }
        }
        14 => {
            if let Some(at) = place(random, sheet, is_digit) {
                sheet.insert(at, b'0');
            }
        }
        15 => {
            if let Some(at) = place(random, sheet, is_digit) {
                sheet.remove(at);
            }
        }
        16 => {
            if let Some(at) = place(random, sheet, |byte| byte == b',') {
                let digits = digits_from(sheet, at + 1);
                sheet.drain(at..at + 1 + digits);
            }
        }
        _ => {
            if let Some(at) = place(random, sheet, is_digit) {
                let start = sheet[..at].iter().rposition(|&byte| !is_digit(byte)).map_or(0, |before| before + 1);
                let digits = digits_from(sheet, start);
                sheet.drain(start..start + digits);
            }
        }
    }
}

/// One of the places of a sheet whose byte fits.
fn place(random: &mut Random, sheet: &[u8], fits: impl Fn(u8) -> bool) -> Option<usize> {
    let places: Vec<usize> = (0..sheet.len()).filter(|&at| fits(sheet[at])).collect();
    (!places.is_empty()).then(|| *random.pick(&places))
}

/// The digits that stand there in a row, counted.
fn digits_from(sheet: &[u8], start: usize) -> usize {
    sheet[start..].iter().take_while(|byte| byte.is_ascii_hexdigit()).count()
}

/// Sheets around the limit of bytes, and with as many letters as there can be. A record with its line end has nine bytes.
fn class_sheet_at_a_limit(random: &mut Random) -> Vec<u8> {
    let more = random.below(2);
    let (lowest, highest) = *random.pick(&[(b'a', b'a'), (b'b', b'a'), (b'(', b'(')]);
    let full = |records: usize| write(&vec![Record { lowest, highest, symbol: 0 }; records]);
    let most = MAX_SHEET_BYTES / 9;
    match random.below(8) {
        0 => Vec::new(),
        1 => vec![*random.pick(b"0,\n"); MAX_SHEET_BYTES + more],
        2 => b"\r\n".repeat(MAX_SHEET_BYTES / 2 + more),
        3 => full(most + more),
        4 => {
            let mut sheet = full(most);
            sheet.resize(MAX_SHEET_BYTES + more, b'0');
            sheet
        }
        5 => full(most)[..9 * most - 2].to_vec(),
        _ => {
            let mut records = pieces(random, 1, 1);
            records.extend_from_within(..more);
            written(random, records)
        }
    }
}

/// Classes that a sheet gives, in half of the cases those of Turkish.
pub fn classes(random: &mut Random) -> Classes {
    if random.one_in(2) {
        return TURKISH.clone();
    }
    take_in(&class_sheet(random)).expect("a sound sheet")
}

/// The entries of classes, now and then damaged so that no sheet gives them, or another one.
pub fn class_entries(random: &mut Random, classes: &Classes) -> Entries {
    let mut entries = classes.entries();
    if !random.one_in(6) {
        return entries;
    }
    let (at, reserved) = (random.below(256), *random.pick(&RESERVED) as usize);
    match random.below(10) {
        0 => entries[at] = OTHER + 1,
        1 => entries[at] = u8::MAX,
        2 => entries[at] = random.between(OTHER as usize + 1, 255) as u8,
        3 => entries[reserved] = OTHER + 1,
        4 | 5 => entries[reserved] = random.below(16) as u8,
        6 | 7 => entries.fill(OTHER),
        8 => {
            entries.fill(OTHER);
            entries[at] = *random.pick(&[0, 15, OTHER, OTHER + 1]);
        }
        _ => entries[at] = random.between(0, OTHER as usize) as u8,
    }
    entries
}
