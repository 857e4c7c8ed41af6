//! Random and damaged sheets, ban lists, class sheets, tables, sequences,
//! messages, texts and buffers. The same start of the generator gives the same
//! inputs.

use crate::bans::{self, Ban};
use crate::code::Code;
use crate::copies::{enlarge, without_copies};
use crate::encode::joined;
use crate::largest;
use crate::operations::{Buffers, VERDICT_ENTRIES, VERDICT_WORKING};
use crate::random::Random;
use crate::sheet;
use crate::table::Table;
use crate::verdict::{verdict, Verdict};

mod class_sheets;
mod lines;
mod texts;
pub use class_sheets::{class_entries, class_sheet, classes, damaged_class_sheet};
pub use lines::{line, next_working};
pub use texts::{spelled, splitting_buffers, text};

/// A code of any size within the limits. In half of the codes every word may begin.
pub fn code(random: &mut Random) -> Code {
    if random.one_in(2) {
        unmarked_code(random)
    } else {
        marked_code(random)
    }
}

/// A code with start marks: any marks, or such that openings matter.
fn marked_code(random: &mut Random) -> Code {
    if random.one_in(2) {
        return code_with_opening(random);
    }
    let mut code = unmarked_code(random);
    let style = random.below(5);
    let marks = code.starts.iter().map(|_| match style {
        0 => true,
        1 => false,
        2 => random.one_in(2),
        3 => random.one_in(8),
        _ => !random.one_in(8),
    });
    code.starts = marks.collect();
    code
}

/// A code in which a single word begins and words compete only after it.
/// Often it is the first of a few that are forced one after the other, and
/// that come only once.
fn code_with_opening(random: &mut Random) -> Code {
    let mut code = unmarked_code(random);
    while code.words.len() < 3 {
        code = unmarked_code(random);
    }
    let count = code.words.len();
    let first = random.below(count);
    let mut last = first;
    code.starts = (0..count).map(|word| word == first).collect();
    if !random.one_in(3) {
        code.rows[first].fill(false);
        for _ in 1..random.between(1, 3.min(count - 2)) {
            let next = (last + 1) % count;
            code.rows.iter_mut().for_each(|row| row[last] = false);
            code.rows[next].fill(false);
            code.rows[next][last] = true;
            last = next;
        }
    }
    // The two words before the first are not forced.
    for before in 1..=2 {
        code.rows[(first + count - before) % count][last] = true;
    }
    code
}

/// A code in which every word may begin.
fn unmarked_code(random: &mut Random) -> Code {
    match random.below(50) {
        0 => return largest::ambiguous(),
        1 => return largest::delay(),
        2..=9 => return suffix_code(random),
        10..=19 => return code_with_long_readings(random),
        _ => {}
    }
    let most_words = *random.pick(&[2, 4, 8, 16, Code::MAX_WORDS]);
    let most_symbols = *random.pick(&[2, 3, 4, 8, Code::MAX_WORD_SYMBOLS]);
    let kinds = *random.pick(&[1, 2, 2, 3, 4, 16]);
    let count = random.between(1, most_words);
    let mut left = Code::MAX_SYMBOLS;
    let mut words = Vec::new();
    for word in 0..count {
        // Every word still to come needs one symbol.
        let length = random.between(1, most_symbols.min(left - (count - word - 1)));
        words.push((0..length).map(|_| random.below(kinds) as u8).collect());
        left -= length;
    }
    let rows = rows(random, &words);
    Code::new(words, rows)
}

/// A code in which no word is the end of another, often without bound; a few bans.
fn suffix_code(random: &mut Random) -> Code {
    let words = random.between(3, Code::MAX_WORDS);
    let symbols = random.between(words, Code::MAX_SYMBOLS);
    let mut code = largest::suffix_code(random, words, symbols);
    for _ in 0..random.below(4) {
        let (x, y) = (random.below(code.words.len()), random.below(code.words.len()));
        code.rows[x][y] = false;
    }
    code
}

/// A small code in which pairs are forbidden until no reading of the least
/// ambiguous message has two words, so that bans can take readings away that
/// look two words back.
fn code_with_long_readings(random: &mut Random) -> Code {
    let kinds = *random.pick(&[2, 2, 3]);
    let word = |random: &mut Random| (0..random.between(1, 3)).map(|_| random.below(kinds) as u8).collect();
    let words: Vec<Vec<u8>> = (0..random.between(3, 6)).map(|_| word(random)).collect();
    let rows = vec![vec![true; words.len()]; words.len()];
    let mut code = Code::new(words, rows);
    while let Verdict::Ambiguous { first, second, .. } = verdict(&code) {
        let Some(reading) = [first, second].into_iter().find(|reading| reading.len() == 2) else { break };
        code.rows[reading[1] as usize][reading[0] as usize] = false;
    }
    code
}

/// Follow entries: all, many, few, or a forced round.
fn rows(random: &mut Random, words: &[Vec<u8>]) -> Vec<Vec<bool>> {
    let count = words.len();
    let style = random.below(5);
    let entry = |random: &mut Random, x: usize, y: usize| match style {
        0 => true,
        1 => !random.one_in(4),
        2 => random.one_in(4),
        3 => x == (y + 1) % count || random.one_in(20),
        // No word starting with 0 follows one that does not end with 0.
        _ => words[x][0] != 0 || words[y].last() == Some(&0),
    };
    (0..count).map(|x| (0..count).map(|y| entry(random, x, y)).collect()).collect()
}

/// The sheet of a code, half of the sheets with start fields; the last line end is sometimes left out.
pub fn sheet(random: &mut Random) -> Vec<u8> {
    let mut sheet = if random.one_in(2) {
        sheet::write(&unmarked_code(random))
    } else {
        sheet::write_with_starts(&marked_code(random))
    };
    if random.one_in(4) {
        sheet.truncate(sheet.len() - 2);
    }
    sheet
}

/// A sheet with one to three damages, or one built at a limit. It may still be acceptable.
pub fn damaged_sheet(random: &mut Random) -> Vec<u8> {
    if random.one_in(4) {
        return sheet_at_a_limit(random);
    }
    let mut sheet = sheet(random);
    for _ in 0..random.between(1, 3) {
        damage(random, &mut sheet);
    }
    sheet
}

/// One damage at a random place.
fn damage(random: &mut Random, sheet: &mut Vec<u8>) {
    let at = random.below(sheet.len() + 1);
    let byte = *random.pick(b"0123456789ABCDEF,,,,\r\n\r\n\r\n011a\"; \x00\xEF");
    match random.below(11) {
        0 => sheet.insert(at, byte),
        1 if at < sheet.len() => sheet[at] = byte,
        2 if at < sheet.len() => drop(sheet.remove(at)),
        3 => drop(sheet.splice(at..at, *b"\r\n")),
        4 => drop(sheet.splice(at..at, *b",1")),
        5 => sheet.truncate(at),
        6 => sheet.extend(b"\r\n"),
        7 => replace_once(random, sheet, b"\r\n", b"\n"),
        8 | 9 => change_second_field(random, sheet),
        _ => {
            let digits = random.between(1, 17);
            drop(sheet.splice(at..at, vec![b'0'; digits]));
        }
    }
}

/// Replaces one of the places where `old` stands, if there is one.
fn replace_once(random: &mut Random, sheet: &mut Vec<u8>, old: &[u8], new: &[u8]) {
    let places: Vec<usize> = (0..sheet.len()).filter(|&i| sheet[i..].starts_with(old)).collect();
    if !places.is_empty() {
        let at = *random.pick(&places);
        drop(sheet.splice(at..at + old.len(), new.iter().copied()));
    }
}

/// Changes or removes the second field of a record, if one has it: a start field or the first row entry.
fn change_second_field(random: &mut Random, sheet: &mut Vec<u8>) {
    let starts_record = |i: usize| i == 0 || sheet[i - 1] == b'\n';
    let records: Vec<usize> = (0..sheet.len()).filter(|&i| starts_record(i)).collect();
    if records.is_empty() {
        return;
    }
    let record = *random.pick(&records);
    let ends_field = |from: usize| sheet[from..].iter().position(|byte| b",\r\n".contains(byte)).map(|i| from + i);
    let Some(comma) = ends_field(record).filter(|&at| sheet[at] == b',') else { return };
    let end = ends_field(comma + 1).unwrap_or(sheet.len());
    let field = *random.pick::<&[u8]>(&[b"", b",", b",0", b",1", b",2", b",A", b",00", b",01", b",10", b",11"]);
    drop(sheet.splice(comma..end, field.iter().copied()));
}

/// Sheets around the limits of bytes, records, word length and symbols.
fn sheet_at_a_limit(random: &mut Random) -> Vec<u8> {
    let more = random.below(2);
    let start_fields = random.below(2);
    let of_lengths = |lengths: &[usize]| -> Vec<u8> {
        let row = ",1".repeat(start_fields + lengths.len());
        lengths.iter().flat_map(|&length| format!("{}{row}\r\n", "0".repeat(length)).into_bytes()).collect()
    };
    match random.below(7) {
        0 => Vec::new(),
        1 => vec![*random.pick(b"0,\n"); Code::MAX_SHEET_BYTES + more],
        2 => b"\r\n".repeat(Code::MAX_SHEET_BYTES / 2 + more),
        3 => of_lengths(&vec![1; Code::MAX_WORDS + more]),
        4 => of_lengths(&[Code::MAX_WORD_SYMBOLS + more, 1]),
        5 => of_lengths(&[vec![4; 31], vec![4 + more]].concat()),
        _ => b"\r\n".repeat(Code::MAX_WORDS + more),
    }
}

/// A code with copies.
pub fn enlarged_code(random: &mut Random) -> Code {
    loop {
        let code = code(random);
        match enlarge(&code, &bans(random, &code)) {
            Ok(enlarged) if !enlarged.copies.is_empty() => return enlarged,
            _ => {}
        }
    }
}

/// Bans on a code: any, such that take readings away, or so many that the
/// copies come up to a limit, or one copy further. Some stand twice. A code of
/// one word has none.
pub fn bans(random: &mut Random, code: &Code) -> Vec<Ban> {
    if code.words.len() < 2 {
        return Vec::new();
    }
    let mut bans = match random.below(6) {
        0 => bans_up_to_a_limit(random, code),
        1 | 2 => bans_on_ambiguity(random, code),
        3 => bans_on_sequences(random, code),
        _ => any_bans(random, code),
    };
    if random.one_in(4) {
        bans.extend_from_within(..random.below(bans.len() + 1).min(2));
    }
    if random.one_in(2) {
        shuffle(random, &mut bans);
    }
    bans
}

/// Puts a list in any order.
fn shuffle<T>(random: &mut Random, list: &mut [T]) {
    for at in (1..list.len()).rev() {
        list.swap(at, random.below(at + 1));
    }
}

/// A few copies, each with a few bans. Often Y is a word that has a copy, so that copies can follow copies.
fn any_bans(random: &mut Random, code: &Code) -> Vec<Ban> {
    let mut bans = Vec::new();
    for _ in 0..random.between(1, 4) {
        let copied: Vec<u8> = bans.iter().map(|ban: &Ban| ban.z).collect();
        let y = if copied.is_empty() || random.one_in(2) {
            random.below(code.words.len()) as u8
        } else {
            *random.pick(&copied)
        };
        let z = other_word(random, code, y);
        bans.extend(bans_after(random, code, y, z));
    }
    bans
}

/// A word other than `y`, mostly one that may follow it.
fn other_word(random: &mut Random, code: &Code, y: u8) -> u8 {
    let others: Vec<u8> = (0..code.words.len() as u8).filter(|&z| z != y).collect();
    let follow: Vec<u8> = others.iter().copied().filter(|&z| code.may_follow(z as usize, y as usize)).collect();
    let any = follow.is_empty() || random.one_in(8);
    *random.pick(if any { &others } else { &follow })
}

/// Bans on one word, on some or on all after these two; also on words that may not follow anyway.
fn bans_after(random: &mut Random, code: &Code, y: u8, z: u8) -> Vec<Ban> {
    let words = code.words.len();
    let style = random.below(6);
    let only = random.below(words);
    let banned = |random: &mut Random, x: usize| match style {
        0..=2 => x == only,
        3 | 4 => x == only || random.one_in(3),
        _ => true,
    };
    (0..words).filter(|&x| banned(random, x)).map(|x| Ban { x: x as u8, y, z }).collect()
}

/// Bans on what stands in permitted sequences.
fn bans_on_sequences(random: &mut Random, code: &Code) -> Vec<Ban> {
    let mut bans = Vec::new();
    for _ in 0..random.between(1, 4) {
        bans.extend(bans_within(&permitted_sequence(random, code, 6)).first());
    }
    bans
}

/// Each three words in a row of a sequence as a ban, where the first two differ.
fn bans_within(sequence: &[u8]) -> Vec<Ban> {
    let three = sequence.windows(3).map(|three| Ban { x: three[2], y: three[0], z: three[1] });
    three.filter(|ban| ban.y != ban.z).collect()
}

/// Each ban takes away a reading of the least ambiguous message that the bans before it leave, if there is one.
fn bans_on_ambiguity(random: &mut Random, code: &Code) -> Vec<Ban> {
    let mut bans = Vec::new();
    let mut left = code.clone();
    for _ in 0..random.between(1, 5) {
        let Verdict::Ambiguous { first, second, .. } = verdict(&left) else { break };
        let found = [bans_within(&first), bans_within(&second)].concat();
        if found.is_empty() {
            return bans_on_sequences(random, code);
        }
        bans.push(*random.pick(&found));
        match enlarge(code, &bans) {
            Ok(enlarged) => left = enlarged,
            Err(_) => break,
        }
    }
    bans
}

/// Copies as long as there is room for the next, half of the times one more.
/// Where a copy finds no room, that of a shorter word may.
fn bans_up_to_a_limit(random: &mut Random, code: &Code) -> Vec<Ban> {
    let words = code.words.len() as u8;
    let mut pairs: Vec<(u8, u8)> = (0..words).flat_map(|y| (0..words).map(move |z| (y, z))).collect();
    pairs.retain(|&(y, z)| y != z);
    let (mut words_left, mut symbols_left) = (Code::MAX_WORDS - code.words.len(), Code::MAX_SYMBOLS - code.symbols());
    let mut bans = Vec::new();
    // The least that finds no room.
    let mut over: Option<Ban> = None;
    let length = |ban: &Ban| code.words[ban.z as usize].len();
    while !pairs.is_empty() {
        let (y, z) = pairs.swap_remove(random.below(pairs.len()));
        let ban = Ban { x: random.below(code.words.len()) as u8, y, z };
        if words_left > 0 && length(&ban) <= symbols_left {
            words_left -= 1;
            symbols_left -= length(&ban);
            bans.push(ban);
        } else {
            over = over.into_iter().chain([ban]).min_by_key(length);
        }
    }
    bans.extend(over.filter(|_| random.one_in(2)));
    bans
}

/// A ban list for a code: sound, damaged, or as long as a list may be.
pub fn list(random: &mut Random, code: &Code) -> Vec<u8> {
    let mut list = bans::write(&bans(random, code));
    if random.one_in(4) {
        list.truncate(list.len().saturating_sub(2));
    }
    match random.below(16) {
        0..=4 => (0..random.between(1, 2)).for_each(|_| damage_list(random, &mut list, code)),
        5 => lengthen(random, &mut list, code),
        _ => {}
    }
    list
}

/// One damage at a random place. The list may still be acceptable.
fn damage_list(random: &mut Random, list: &mut Vec<u8>, code: &Code) {
    let at = random.below(list.len() + 1);
    let byte = *random.pick(b"0123456789,,,\r\n\r\nAFa\"; -\x00\xEF");
    let words = code.words.len();
    match random.below(12) {
        0 => list.insert(at, byte),
        1 if at < list.len() => list[at] = byte,
        2 if at < list.len() => drop(list.remove(at)),
        3 => drop(list.splice(at..at, *b"\r\n")),
        4 => list.extend(b"\r\n"),
        5 => replace_once(random, list, b"\r\n", b"\n"),
        6 => replace_once(random, list, b"\r\n", b"\r\n\r\n"),
        7 => replace_once(random, list, b",", b",0"),
        8 => list.truncate(at),
        9 => list.extend(b"0,1,1"),
        10 => list.extend(format!("{},0,1", words - random.below(2)).bytes()),
        _ => list.extend(format!("0,{},{}", random.below(words + 1), words - random.below(2)).bytes()),
    }
}

/// A list with more and more bans on the first two words, until it has as many
/// bytes as a list may have or one more; that is met exactly where the code
/// has words with numbers of two digits.
fn lengthen(random: &mut Random, list: &mut Vec<u8>, code: &Code) {
    if !list.is_empty() && !list.ends_with(b"\r\n") {
        list.extend(b"\r\n");
    }
    let words = code.words.len();
    let length = Code::MAX_BANS_BYTES + random.below(2);
    if words > 10 {
        let spare = length.saturating_sub(list.len()) % b"0,0,1\r\n".len();
        list.extend(b"10,0,1\r\n".repeat(spare));
    }
    while list.len() + b"0,0,1\r\n".len() <= length {
        list.extend(format!("{},0,1\r\n", random.below(words.min(10))).bytes());
    }
    if random.one_in(4) {
        list.resize(length, *random.pick(b"0,"));
    }
}

/// A table with one damage. It may still be one that a sheet gives, or a sheet and a ban list.
pub fn damaged_table(random: &mut Random, code: &Code) -> Table {
    let mut table = Table::of(code);
    if random.one_in(if code.copies.is_empty() { 6 } else { 2 }) {
        damage_copies(random, &mut table);
        return table;
    }
    let (x, y) = (random.below(Code::MAX_WORDS), random.below(Code::MAX_WORDS));
    let at = random.below(Code::MAX_WORD_SYMBOLS);
    let used = random.below(table.count);
    match random.below(12) {
        0 => table.count = *random.pick(&[0, Code::MAX_WORDS, Code::MAX_WORDS + 1, usize::MAX]),
        1 => table.count = random.between(0, table.count),
        2 => table.words[used].len = *random.pick(&[0, 15, 16, 17, usize::MAX]),
        3 => table.words[x].len = random.between(0, 16),
        4 => table.words[used].symbols[at] = *random.pick(&[15, 16, 255]),
        5 => table.words[x].symbols[at] = random.below(16) as u8,
        6 => table.rows[x].entries[y] = random.below(3) as u8,
        7 => table.rows[used].entries[y] ^= 1,
        8 => table.starts[x] = random.below(3) as u8,
        9 => table.starts[used] = *random.pick(&[2, 255]),
        10 => table.starts[used] ^= 1,
        _ => table.words.iter_mut().for_each(|word| word.len = 5),
    }
    table
}

/// One damage to what belongs to copies. Many leave a table that only just fails, or one that another list gives.
fn damage_copies(random: &mut Random, table: &mut Table) {
    let count = table.count;
    let copy = random.between(table.originals.min(count - 1), count - 1);
    let other = random.below(count);
    let any = random.below(Code::MAX_WORDS);
    match random.below(16) {
        0 => table.originals = *random.pick(&[0, count, count + 1, usize::MAX]),
        1 => table.originals = random.between(count.saturating_sub(2), count + 1),
        2 => table.origins[any] = *random.pick(&[0, 1, any as u8, count as u8, 255]),
        3 => table.origins[copy] = other as u8,
        4 => table.behind[any] = *random.pick(&[0, 1, count as u8, 255]),
        5 => table.behind[copy] = other as u8,
        6 | 7 => table.rows[other].entries[copy] ^= 1,
        8 => table.rows[copy].entries[other] ^= 1,
        9 => table.rows[other].entries[random.below(count)] ^= 1,
        10 => table.starts[copy] ^= 1,
        11 => table.words[copy].symbols[0] ^= 1,
        12 => allow_after(table, copy),
        13 => remove_last(table),
        14 => repeat_last(table),
        _ => exchange(table, copy, count - 1),
    }
}

/// Lets everything come after a copy that may come after its word: no ban is left.
fn allow_after(table: &mut Table, copy: usize) {
    let word = table.origins[copy] as usize;
    table.rows.iter_mut().for_each(|row| row.entries[copy] = row.entries[word]);
}

/// Takes the last word or copy away, and nothing else.
fn remove_last(table: &mut Table) {
    let last = table.count - 1;
    table.words[last] = Table::BLANK.words[0];
    table.rows[last] = Table::BLANK.rows[0];
    table.rows.iter_mut().for_each(|row| row.entries[last] = 0);
    [table.starts[last], table.origins[last], table.behind[last]] = [0; 3];
    table.count = last;
}

/// Puts the last word or copy in once more, if there is room.
fn repeat_last(table: &mut Table) {
    let last = table.count - 1;
    if table.count < Code::MAX_WORDS {
        table.words[last + 1] = table.words[last];
        table.rows[last + 1] = table.rows[last];
        table.rows.iter_mut().for_each(|row| row.entries[last + 1] = row.entries[last]);
        table.origins[last + 1] = table.origins[last];
        table.behind[last + 1] = table.behind[last];
        table.count += 1;
    }
}

/// Exchanges two places of the table with all that belongs to them: two copies then stand in another list's order.
fn exchange(table: &mut Table, one: usize, other: usize) {
    table.words.swap(one, other);
    table.rows.swap(one, other);
    table.rows.iter_mut().for_each(|row| row.entries.swap(one, other));
    table.starts.swap(one, other);
    table.origins.swap(one, other);
    table.behind.swap(one, other);
}

/// A permitted sequence of at most `length` words.
pub fn permitted_sequence(random: &mut Random, code: &Code, length: usize) -> Vec<u8> {
    carried_on(random, code, Vec::new(), length)
}

/// A sequence whose words may follow each other, of one word or up to
/// `length` words. Any word stands first, also one that may not begin.
fn inner_sequence(random: &mut Random, code: &Code, length: usize) -> Vec<u8> {
    let first = random.below(code.originals()) as u8;
    carried_on(random, code, vec![first], length)
}

/// The sequence with words that may come next, up to `length` words. Copies
/// are counted among the words until the end, then named by their originals.
fn carried_on(random: &mut Random, code: &Code, mut sequence: Vec<u8>, length: usize) -> Vec<u8> {
    while sequence.len() < length {
        let last = sequence.last().copied();
        let choices: Vec<usize> = (0..code.words.len()).filter(|&x| code.may_come(x, last)).collect();
        if choices.is_empty() {
            break;
        }
        sequence.push(*random.pick(&choices) as u8);
    }
    sequence.into_iter().map(|word| code.original(word as usize) as u8).collect()
}

/// A short sequence: mostly permitted, sometimes but for its first word or for bans that look two words back.
fn short_sequence(random: &mut Random, code: &Code) -> Vec<u8> {
    let most = *random.pick(&[0, 3, 10, 40]);
    if !code.copies.is_empty() && random.one_in(3) {
        return short_sequence(random, &without_copies(code).0);
    }
    let length = random.between(0, most);
    if random.one_in(6) {
        inner_sequence(random, code, length)
    } else {
        permitted_sequence(random, code, length)
    }
}

/// A sequence: mostly permitted, sometimes with a word changed; now and then
/// one whose message is about as long as a message may be.
pub fn sequence(random: &mut Random, code: &Code) -> Vec<u8> {
    if random.one_in(100) {
        return sequence_at_the_limit(random, code);
    }
    let mut sequence = short_sequence(random, code);
    if !sequence.is_empty() && random.one_in(3) {
        let at = random.below(sequence.len());
        let word = random.below(code.originals()) as u8;
        sequence[at] = *random.pick(&[word, word, word, code.originals() as u8, 255]);
    }
    sequence
}

/// A permitted sequence whose message ends within a word of the limit.
fn sequence_at_the_limit(random: &mut Random, code: &Code) -> Vec<u8> {
    let mut sequence = permitted_sequence(random, code, Code::MAX_MESSAGE_SYMBOLS + 1);
    let mut symbols: usize = sequence.iter().map(|&word| code.words[word as usize].len()).sum();
    let over = random.one_in(2);
    while symbols > Code::MAX_MESSAGE_SYMBOLS {
        let Some(&last) = sequence.last() else { break };
        let without = symbols - code.words[last as usize].len();
        if over && without <= Code::MAX_MESSAGE_SYMBOLS {
            break;
        }
        sequence.pop();
        symbols = without;
    }
    sequence
}

/// A message: mostly one with a reading, sometimes changed, cut or wild; now
/// and then about as long as a message may be.
pub fn message(random: &mut Random, code: &Code) -> Vec<u8> {
    if random.one_in(100) {
        let length = Code::MAX_MESSAGE_SYMBOLS + random.below(2);
        let mut message = joined(code, &permitted_sequence(random, code, length));
        message.truncate(length);
        return message;
    }
    short_message(random, code)
}

/// A message that is not near the limit.
fn short_message(random: &mut Random, code: &Code) -> Vec<u8> {
    let mut message = joined(code, &short_sequence(random, code));
    let at = random.below(message.len() + 1);
    match random.below(6) {
        0 if at < message.len() => message[at] = random.below(4) as u8,
        1 => message.truncate(at),
        2 if at < message.len() && random.one_in(4) => message[at] = *random.pick(&[16, 255]),
        3 => message.iter_mut().for_each(|symbol| *symbol = random.below(2) as u8),
        _ => {}
    }
    message
}

/// A length that is needed or more, now and then too short.
fn length(random: &mut Random, needed: usize) -> usize {
    match random.below(40) {
        0 => needed.saturating_sub(1),
        1 => random.between(0, needed),
        2 => needed + random.between(0, 20),
        _ => needed,
    }
}

/// A buffer of bytes with something in it, so that a change shows.
pub fn buffer(random: &mut Random, needed: usize) -> Vec<u8> {
    let mark = random.between(1, 255) as u8;
    vec![mark; length(random, needed)]
}

fn working(random: &mut Random, needed: usize) -> Vec<u64> {
    let mark = random.between(0, 255) as u64;
    vec![mark; length(random, needed)]
}

/// Buffers for reading a message.
pub fn reading_buffers(random: &mut Random, message: &[u8]) -> Buffers {
    Buffers {
        message: Vec::new(),
        first: buffer(random, message.len()),
        second: buffer(random, message.len()),
        working: working(random, message.len() + 1),
    }
}

/// Buffers for a verdict.
pub fn verdict_buffers(random: &mut Random) -> Buffers {
    Buffers {
        message: buffer(random, VERDICT_ENTRIES),
        first: buffer(random, VERDICT_ENTRIES),
        second: buffer(random, VERDICT_ENTRIES),
        working: working(random, VERDICT_WORKING),
    }
}
