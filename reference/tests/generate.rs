//! The generated inputs: within the limits where that is promised, and the same at every run.

use reference::bans;
use reference::classes::{self, Classes, OTHER, RESERVED};
use reference::code::{Code, Refusal};
use reference::copies::{enlarge, without_copies};
use reference::generate;
use reference::letters::TURKISH;
use reference::operations::{Operations, Reference};
use reference::random::Random;
use reference::rivals::Rivals;
use reference::sheet::{take_in, write};
use reference::split::{DOT, MAX_TEXT_BYTES};
use reference::table::Table;
use reference::verdict::verdict;
use std::cmp::Ordering;
use std::collections::{BTreeMap, BTreeSet};

#[test]
fn generated_codes_are_within_the_limits() {
    let mut random = Random(1);
    for _ in 0..3_000 {
        let code = generate::code(&mut random);
        assert_eq!(take_in(&write(&code)).as_ref(), Ok(&code));
        assert_eq!(Table::of(&code).code().as_ref(), Some(&code));
        assert!(take_in(&generate::sheet(&mut random)).is_ok());
    }
}

/// Half of the sheets have start fields. In half of these a single word begins and others compete after it.
#[test]
fn openings_matter_in_generated_sheets() {
    let mut random = Random(4);
    let (mut marked, mut compete_inside) = (0, 0);
    for _ in 0..10_000 {
        let sheet = generate::sheet(&mut random);
        let code = take_in(&sheet).unwrap();
        let record = sheet.split(|&byte| byte == b'\r').next().unwrap();
        if record.iter().filter(|&&byte| byte == b',').count() == code.words.len() {
            continue;
        }
        marked += 1;
        let one_begins = code.starts.iter().filter(|&&start| start).count() == 1;
        compete_inside += usize::from(one_begins && !Rivals::of(&code).none());
    }
    println!("{marked} with start fields, in {compete_inside} words compete after the only one that begins");
    assert!((4_800..5_200).contains(&marked));
    assert!((2_400..3_000).contains(&compete_inside));
}

#[test]
fn some_damages_leave_a_table_that_a_sheet_gives() {
    let mut random = Random(2);
    let mut given = 0;
    for _ in 0..3_000 {
        let code = generate::code(&mut random);
        let table = generate::damaged_table(&mut random, &code);
        if let Some(code) = table.code() {
            let (words, bans) = without_copies(&code);
            assert_eq!(take_in(&write(&words)).as_ref(), Ok(&words));
            assert_eq!(enlarge(&words, &bans), Ok(code));
            given += 1;
        }
    }
    assert!((300..2_700).contains(&given), "{given}");
}

/// Messages for the next word: cut about the delay, inside a word and at its
/// end; with a high symbol as the last that counts and as the first that does
/// not; empty, and too long.
#[test]
fn messages_about_the_delay() {
    let mut random = Random(9);
    let mut lengths = [0; 3];
    let (mut high_last, mut high_behind, mut empty, mut longest, mut too_long) = (0, 0, 0, 0, 0);
    for _ in 0..3_000 {
        let code = generate::code(&mut random);
        let Some(delay) = verdict(&code).delay() else { continue };
        let line = generate::line(&mut random, &code, Some(delay));
        for (length, count) in [delay.wrapping_sub(1), delay, delay + 1].into_iter().zip(&mut lengths) {
            *count += usize::from(line.len() == length && delay > 0);
        }
        let is_high = |at: usize| line.get(at).is_some_and(|&symbol| symbol > 15);
        high_last += usize::from(is_high(delay.wrapping_sub(1)));
        high_behind += usize::from(is_high(delay));
        empty += usize::from(line.is_empty());
        longest += usize::from(line.len() == Code::MAX_MESSAGE_SYMBOLS);
        too_long += usize::from(line.len() == Code::MAX_MESSAGE_SYMBOLS + 1);
    }
    println!("{lengths:?} about the delay, {high_last} high last, {high_behind} high behind");
    println!("{empty} empty, {longest} as long as may be, {too_long} too long");
    let met = [high_last, high_behind, empty];
    assert!(lengths.iter().chain(&met).all(|&times| times >= 20) && longest >= 5 && too_long >= 5);
}

#[test]
fn the_same_start_gives_the_same_inputs() {
    let inputs = |start: u64| {
        let mut random = Random(start);
        let code = generate::code(&mut random);
        let sequence = generate::sequence(&mut random, &code);
        let message = generate::message(&mut random, &code);
        (generate::damaged_sheet(&mut random), sequence, message)
    };
    assert_eq!(inputs(3), inputs(3));
    assert_ne!(inputs(3), inputs(4));
}

/// Lists whose copies come up to 32 words, or to 128 symbols, and lists of one more.
#[test]
fn lists_at_the_limits() {
    let mut random = Random(5);
    let (mut words, mut symbols, mut too_many_words, mut too_many_symbols) = (0, 0, 0, 0);
    for _ in 0..3_000 {
        let code = generate::code(&mut random);
        let bans = generate::bans(&mut random, &code);
        let pairs: BTreeSet<(u8, u8)> = bans.iter().map(|ban| (ban.y, ban.z)).collect();
        let count = code.words.len() + pairs.len();
        let length = code.symbols() + pairs.iter().map(|&(_, z)| code.words[z as usize].len()).sum::<usize>();
        let fits = count <= Code::MAX_WORDS && length <= Code::MAX_SYMBOLS;
        assert_eq!(enlarge(&code, &bans).is_ok(), fits);
        words += usize::from(!pairs.is_empty() && fits && count == Code::MAX_WORDS);
        symbols += usize::from(!pairs.is_empty() && fits && length == Code::MAX_SYMBOLS);
        too_many_words += usize::from(count == Code::MAX_WORDS + 1 && length <= Code::MAX_SYMBOLS);
        too_many_symbols += usize::from(length == Code::MAX_SYMBOLS + 1 && count <= Code::MAX_WORDS);
    }
    println!("32 words {words}, 33 words {too_many_words}, 128 symbols {symbols}, 129 symbols {too_many_symbols}");
    assert!([words, symbols, too_many_words, too_many_symbols].iter().all(|&times| times >= 20));
}

/// Lists of 4,096 bytes are among those generated, accepted and not; and so are longer ones.
#[test]
fn lists_as_long_as_may_be() {
    let mut random = Random(6);
    let (mut longest, mut longest_accepted, mut too_long) = (0, 0, 0);
    for _ in 0..10_000 {
        let code = generate::code(&mut random);
        let list = generate::list(&mut random, &code);
        let taken = bans::take_in(&list, code.words.len());
        longest += usize::from(list.len() == 4_096);
        longest_accepted += usize::from(list.len() == 4_096 && taken.is_ok());
        too_long += usize::from(list.len() == 4_097);
        assert_eq!(taken == Err(Refusal::SheetLength), list.len() > 4_096);
    }
    println!("4,096 bytes {longest}, of these accepted {longest_accepted}, 4,097 bytes {too_long}");
    assert!([longest, longest_accepted, too_long].iter().all(|&times| times >= 20));
}

/// In codes with copies, some damages leave a table that another sheet and list give.
#[test]
fn some_damages_leave_a_code_with_copies() {
    let mut random = Random(7);
    let (mut given, mut differ, mut chains) = (0, 0, 0);
    for _ in 0..3_000 {
        let code = generate::enlarged_code(&mut random);
        assert_eq!(Table::of(&code).code().as_ref(), Some(&code));
        let words = code.originals();
        let is_chain = |x: usize| (words..code.words.len()).any(|y| code.may_follow(x, y));
        chains += usize::from((words..code.words.len()).any(is_chain));
        differ += usize::from(verdict(&code) != verdict(&without_copies(&code).0));
        given += usize::from(generate::damaged_table(&mut random, &code).code().is_some());
    }
    println!("{given} damaged and given, in {chains} a copy follows a copy, in {differ} the bans change the verdict");
    assert!((300..2_700).contains(&given) && chains > 500 && differ > 200);
}

/// Texts of every kind are among those generated, also texts as long as may be, a single word among them, and longer ones.
#[test]
fn texts_of_every_kind() {
    let mut random = Random(8);
    let [mut empty, mut letters, mut others, mut all, mut signs, mut longest, mut one_word, mut too_long] = [0; 8];
    for _ in 0..20_000 {
        let code = generate::code(&mut random);
        let mut again = random.clone();
        let text = generate::text(&mut random, &code, &TURKISH);
        assert_eq!(generate::text(&mut again, &code, &TURKISH), text);
        let is_letter = |&byte: &u8| TURKISH.symbol(byte).is_some();
        empty += usize::from(text.is_empty());
        letters += usize::from(!text.is_empty() && text.iter().all(is_letter));
        others += usize::from(!text.is_empty() && !text.iter().any(is_letter));
        all += usize::from((0..=255).all(|byte| text.contains(&byte)));
        signs += usize::from([DOT, b'(', b')', b'[', b']'].iter().any(|sign| text.contains(sign)));
        longest += usize::from(text.len() == MAX_TEXT_BYTES);
        one_word += usize::from(text.len() == MAX_TEXT_BYTES && text.iter().all(is_letter));
        too_long += usize::from(text.len() == MAX_TEXT_BYTES + 1);
        assert!(text.len() <= MAX_TEXT_BYTES + 1);
    }
    let met = [empty, letters, others, all, signs, longest, one_word, too_long];
    println!("{met:?}");
    assert!(met.iter().all(|&times| times >= 20), "{met:?}");
}

/// Each of the five buffers of a splitting is sometimes too short, exact and longer, and holds entries that are not zero.
#[test]
fn buffers_of_splitting() {
    let mut random = Random(9);
    let (table, classes) = (Reference.turkish(), Reference.turkish_classes());
    let text = b"kongre baba bb";
    let needed = [2 * text.len() + 1, text.len(), text.len(), text.len(), text.len() + 1];
    let (mut met, mut dirty) = ([[0; 5]; 3], [0; 5]);
    for _ in 0..10_000 {
        let (mut output, mut buffers) = generate::splitting_buffers(&mut random, text);
        let bytes = [&output, &buffers.message, &buffers.first, &buffers.second];
        let lengths = [bytes[0].len(), bytes[1].len(), bytes[2].len(), bytes[3].len(), buffers.working.len()];
        for buffer in 0..5 {
            met[match lengths[buffer].cmp(&needed[buffer]) {
                Ordering::Less => 0,
                Ordering::Equal => 1,
                Ordering::Greater => 2,
            }][buffer] += 1;
        }
        for (buffer, bytes) in bytes.iter().enumerate() {
            dirty[buffer] += usize::from(bytes.iter().any(|&byte| byte != 0));
        }
        dirty[4] += usize::from(buffers.working.iter().any(|&entry| entry != 0));
        let short = lengths.iter().zip(&needed).any(|(length, needed)| length < needed);
        let refused = Reference.split(&table, &classes, text, &mut output, &mut buffers).err();
        assert_eq!(refused, short.then_some(Refusal::ShortBuffer));
    }
    assert!(met.iter().flatten().all(|&times| times >= 100), "{met:?}");
    assert!(dirty.iter().all(|&times| times > 9_000), "{dirty:?}");
}

/// The numbers of a record, if it is one of three fields of two, two and one digit.
fn numbers(line: &str) -> Option<(u8, u8, u8)> {
    let fields: Vec<&str> = line.split(',').collect();
    let number = |field: &str| u8::from_str_radix(field, 16).ok().filter(|_| field == field.to_uppercase());
    let fits = fields.iter().map(|field| field.len()).eq([2, 2, 1]);
    fits.then(|| Some((number(fields[0])?, number(fields[1])?, number(fields[2])?)))?
}

/// Class sheets of every shape and with every cause of a refusal are among those generated, also where several hold.
#[test]
fn class_sheets_of_every_kind() {
    let mut random = Random(10);
    let mut met: BTreeMap<&str, usize> = BTreeMap::new();
    for round in 0..20_000 {
        let sheet = match round % 2 {
            0 => generate::class_sheet(&mut random),
            _ => generate::damaged_class_sheet(&mut random),
        };
        let taken = classes::take_in(&sheet);
        assert!(round % 2 == 1 || taken.is_ok());
        assert!(sheet.len() <= classes::MAX_SHEET_BYTES + 9);
        kinds(&sheet, &taken).into_iter().for_each(|kind| *met.entry(kind).or_default() += 1);
    }
    println!("{met:#?}");
    assert_eq!(met.len(), 40);
    assert!(met.values().all(|&times| times >= 20));
}

/// What holds of a class sheet.
fn kinds(sheet: &[u8], taken: &Result<Classes, Refusal>) -> Vec<&'static str> {
    let text = String::from_utf8_lossy(sheet);
    let lines: Vec<&str> = text.strip_suffix("\r\n").unwrap_or(&text).split("\r\n").collect();
    let records: Vec<(u8, u8, u8)> = lines.iter().filter_map(|line| numbers(line)).collect();
    let mut times = [0; 256];
    for &(low, high, _) in &records {
        (low..=high).for_each(|byte| times[byte as usize] += 1);
    }
    let fields = |count: usize| lines.iter().any(|line| line.split(',').count() == count);
    let field_of = |digits: usize| lines.iter().any(|line| line.split(',').nth(1).is_some_and(|f| f.len() == digits));
    let range = |fits: &dyn Fn(u8, u8, u8) -> bool| {
        RESERVED.iter().any(|&byte| records.iter().any(|&(low, high, _)| fits(low, high, byte)))
    };
    let upside_down = records.iter().any(|(low, high, _)| low > high);
    let repeated = (1..records.len()).any(|at| records[..at].contains(&records[at]));
    let twice = times.iter().filter(|&&times| times > 1).count();
    let reserved = range(&|low, high, byte| (low..=high).contains(&byte));
    let holds: &[(&str, bool)] = match taken {
        Ok(classes) => {
            let letters = 256 - classes.bytes(None).len();
            let ascending = records.is_sorted();
            let neighbours = records.windows(2).any(|two| two[0].1.checked_add(1) == Some(two[1].0));
            let gap = records.windows(2).any(|two| two[0].1 < two[1].0 && two[1].0 - two[0].1 > 1);
            &[
                ("accepted", true),
                ("one record", records.len() == 1),
                ("single letters", records.len() > 5 && letters == records.len()),
                ("ranges", records.len() > 1 && records.iter().all(|(low, high, _)| low < high)),
                ("neighbours", neighbours),
                ("apart", gap),
                ("in another order", !ascending),
                ("all letters, one record each", records.len() == 251),
                ("all letters, five records", letters == 251 && records.len() == 5),
                ("symbol F", records.iter().any(|record| record.2 == 15)),
                ("no last line end", !sheet.ends_with(b"\r\n")),
                ("Turkish letters", *classes == *TURKISH),
            ]
        }
        Err(Refusal::SheetLength) => &[("0 bytes", sheet.is_empty()), ("4,097 bytes", sheet.len() == 4_097)],
        Err(Refusal::ClassRecord) => &[
            ("18, 4,096 bytes", sheet.len() == 4_096),
            ("18, lower-case digit", sheet.iter().any(|byte| (b'a'..=b'f').contains(byte))),
            ("18, LF alone", text.replace("\r\n", "").contains('\n')),
            ("18, CR alone", text.replace("\r\n", "").contains('\r')),
            ("18, other byte", text.contains([';', ' ', '"', 'G', '\0'])),
            ("18, two fields", fields(2)),
            ("18, four fields", fields(4)),
            ("18, empty field", field_of(0)),
            ("18, one digit", field_of(1)),
            ("18, three digits", field_of(3)),
            ("18, blank line", lines.len() > 1 && lines[..lines.len() - 1].contains(&"")),
            ("18, blank line at the end", lines.len() > 1 && lines.ends_with(&[""])),
            ("18, B7 or a bracket alone", range(&|low, high, byte| low == byte && high == byte)),
            ("18, lowest", range(&|low, high, byte| low == byte && high > byte)),
            ("18, highest", range(&|low, high, byte| low < byte && high == byte)),
            ("18, inside", range(&|low, high, byte| low < byte && high > byte)),
            ("18 and 19", upside_down),
            ("18 and 20", twice > 0),
            ("18 for B7 or a bracket, 19 and 20", reserved && upside_down && twice > 0),
        ],
        Err(Refusal::ClassRange) => &[
            ("19", twice == 0),
            ("19 over B7 or a bracket", range(&|low, high, byte| high <= byte && byte <= low)),
            ("19 and 20", twice > 0),
            ("19, 4,095 bytes", sheet.len() == 4_095),
        ],
        Err(_) => {
            &[("20 by one byte", twice == 1), ("20 by several", twice > 1), ("20, the same record twice", repeated)]
        }
    };
    holds.iter().filter(|(_, holds)| *holds).map(|(kind, _)| *kind).collect()
}

/// Classes that splitting is given: those of Turkish, others, and such as no sheet gives, for each cause.
#[test]
fn classes_of_every_kind() {
    let mut random = Random(11);
    let mut met = [0; 7];
    for _ in 0..10_000 {
        let classes = generate::classes(&mut random);
        assert_eq!(Classes::given(&classes.entries()).as_ref(), Some(&classes));
        let entries = generate::class_entries(&mut random, &classes);
        let is_letter = |&entry: &u8| entry < OTHER;
        let holds = [
            entries == TURKISH.entries(),
            entries != TURKISH.entries() && Classes::given(&entries).is_some(),
            entries.contains(&(OTHER + 1)),
            entries.contains(&u8::MAX),
            entries.iter().any(|&entry| entry > OTHER + 1 && entry < u8::MAX),
            RESERVED.iter().any(|&byte| is_letter(&entries[byte as usize])),
            !entries.iter().any(is_letter),
        ];
        met.iter_mut().zip(holds).for_each(|(met, holds)| *met += usize::from(holds));
    }
    println!("{met:?}");
    assert!(met.iter().all(|&times| times >= 100), "{met:?}");
}
