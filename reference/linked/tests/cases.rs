//! Cases 11 to 14 of the scope paper, codes with start marks, codes with ban
//! lists, class sheets, next words, and figures 2 and 3 of Gönenç and the words
//! that he splits, run by the proved library and by the reference: both give the
//! same, lent buffers included, and it is what the papers say.

use furlazon::TABLE_BYTES;
use linked::image;
use linked::operations::Linked;
use reference::bans;
use reference::cases::{
    banned, class_sheets, code_t, code_u, codes_for_the_empty_message, figure_2, limit_sheets, lines,
    lines_with_marks_and_bans, openings, refused_lists, shortening, turkish_six, turkish_six_with_r, turkish_twelve,
    Lines, AMBIGUOUS_WORDS, FIGURE_3_LONGEST_PATH, SPLIT_WORDS, TURKISH_CLASSES, UNREAD_WORDS,
};
use reference::classes::{Classes, Entries, OTHER};
use reference::code::{Code, Refusal};
use reference::copies::enlarge;
use reference::encode::joined;
use reference::largest;
use reference::letters::{bytes, with_r_apart, TURKISH};
use reference::operations::{
    Buffers, Operations, ReadingLengths, Reference, VerdictLengths, VERDICT_ENTRIES, VERDICT_WORKING,
};
use reference::sheet::write_with_starts;
use reference::table::Table;
use reference::verdict::Verdict;
use std::fs;

/// What a lent entry holds before a call, so that a change shows.
const MARK: u8 = 0x5A;

/// Entries that a buffer has past what is needed.
const SPARE: [usize; 2] = [0, 3];

fn lent(entries: usize, working: usize) -> Buffers {
    Buffers {
        message: vec![MARK; entries],
        first: vec![MARK; entries],
        second: vec![MARK; entries],
        working: vec![u64::from(MARK); working],
    }
}

/// Lent buffers after an answer: these lists at the start and the rest
/// unchanged, the working buffer all zero.
fn left(mut buffers: Buffers, message: &[u8], first: &[u8], second: &[u8]) -> Buffers {
    buffers.message[..message.len()].copy_from_slice(message);
    buffers.first[..first.len()].copy_from_slice(first);
    buffers.second[..second.len()].copy_from_slice(second);
    buffers.working.fill(0);
    buffers
}

/// Both take in the sheet with this refusal or none; the table. A refusal
/// leaves the buffer of the library's image as it was.
fn taken_in(sheet: &[u8], refusal: Option<Refusal>) -> Table {
    let taken = Linked.take_in(sheet);
    assert_eq!(taken, Reference.take_in(sheet));
    let (refused, table) = taken;
    assert_eq!(refused, refusal);
    let mut buffer = [MARK; TABLE_BYTES + 3];
    let mut expected = buffer;
    if refusal.is_none() {
        expected[..TABLE_BYTES].copy_from_slice(&image::pack(&table));
    }
    assert_eq!(furlazon::take_in(sheet, &mut buffer), refusal.map_or(0, |refusal| u64::from(refusal.number())));
    assert_eq!(buffer, expected);
    table
}

/// Both enlarge the table by the list with this refusal or none; the enlarged
/// table. A refusal leaves the buffer of the library's image as it was.
fn enlarged_by(table: &Table, list: &[u8], refusal: Option<Refusal>) -> Table {
    let enlarged = Linked.enlarge(table, list);
    assert_eq!(enlarged, Reference.enlarge(table, list));
    let (refused, enlarged) = enlarged;
    assert_eq!(refused, refusal);
    let mut buffer = [MARK; TABLE_BYTES + 3];
    let mut expected = buffer;
    if refusal.is_none() {
        expected[..TABLE_BYTES].copy_from_slice(&image::pack(&enlarged));
    }
    let number = refusal.map_or(0, |refusal| u64::from(refusal.number()));
    assert_eq!(furlazon::enlarge(&image::pack(table), list, &mut buffer), number);
    assert_eq!(buffer, expected);
    enlarged
}

/// Both give this verdict.
fn gives_verdict(table: &Table, verdict: Verdict) {
    match verdict {
        Verdict::Ambiguous { message, first, second } => {
            let [symbols, words, others] = [&message, &first, &second].map(Vec::len);
            let lengths = VerdictLengths::Ambiguous { message: symbols, first: words, second: others };
            gives(table, lengths, &message, &first, &second);
        }
        Verdict::Delay(delay) => gives(table, VerdictLengths::Delay(delay), &[], &[], &[]),
        Verdict::Unbounded => gives(table, VerdictLengths::Unbounded, &[], &[], &[]),
    }
}

/// Both give this verdict and leave these lists in the buffers.
fn gives(table: &Table, verdict: VerdictLengths, message: &[u8], first: &[u8], second: &[u8]) {
    for spare in SPARE {
        let before = lent(VERDICT_ENTRIES + spare, VERDICT_WORKING + spare);
        let (mut ours, mut theirs) = (before.clone(), before.clone());
        let answer = Linked.verdict(table, &mut ours);
        assert_eq!(answer, Reference.verdict(table, &mut theirs));
        assert_eq!(ours, theirs);
        assert_eq!(answer, Ok(verdict));
        assert_eq!(ours, left(before, message, first, second));
    }
}

/// Both read the message so and leave these readings in the buffers.
fn reads(table: &Table, message: &[u8], lengths: ReadingLengths, first: &[u8], second: &[u8]) {
    for spare in SPARE {
        let before = lent(message.len() + spare, message.len() + 1 + spare);
        let (mut ours, mut theirs) = (before.clone(), before.clone());
        let answer = Linked.read(table, message, &mut ours);
        assert_eq!(answer, Reference.read(table, message, &mut theirs));
        assert_eq!(ours, theirs);
        assert_eq!(answer, Ok(lengths));
        assert_eq!(ours, left(before, &[], first, second));
    }
}

/// Both refuse the message as one without a reading, and leave the working buffer zero.
fn does_not_read(table: &Table, message: &[u8]) {
    let before = lent(message.len(), message.len() + 1);
    let (mut ours, mut theirs) = (before.clone(), before.clone());
    assert_eq!(Linked.read(table, message, &mut ours), Err(Refusal::NoReading));
    assert_eq!(Reference.read(table, message, &mut theirs), Err(Refusal::NoReading));
    assert_eq!(ours, theirs);
    assert_eq!(ours, left(before, &[], &[], &[]));
}

/// Both refuse the sequence as one that is not permitted.
fn does_not_encode(table: &Table, sequence: &[u8]) {
    let mut message = vec![MARK; Code::MAX_WORD_SYMBOLS * sequence.len()];
    assert_eq!(Linked.encode(table, sequence, &mut message), Err(Refusal::ForbiddenPair));
    assert_eq!(Reference.encode(table, sequence, &mut message), Err(Refusal::ForbiddenPair));
    assert!(message.iter().all(|&entry| entry == MARK));
}

/// Both encode the sequence as this message.
fn encodes(table: &Table, sequence: &[u8], message: &[u8]) {
    for spare in SPARE {
        let mut ours = vec![MARK; message.len() + spare];
        let mut theirs = ours.clone();
        let answer = Linked.encode(table, sequence, &mut ours);
        assert_eq!(answer, Reference.encode(table, sequence, &mut theirs));
        assert_eq!(ours, theirs);
        assert_eq!(answer, Ok(message.len()));
        assert_eq!(ours, [message, &vec![MARK; spare]].concat());
    }
}

#[test]
fn case_11_six_turkish_types() {
    let table = taken_in(include_bytes!("../../../sheets/turkish-six.csv"), None);
    assert_eq!(table, Table::of(&turkish_six()));
    gives(&table, VerdictLengths::Delay(5), &[], &[], &[]);
}

#[test]
fn case_12_twelve_turkish_types() {
    let table = taken_in(include_bytes!("../../../sheets/turkish-twelve.csv"), None);
    assert_eq!(table, Table::of(&turkish_twelve()));
    let lengths = VerdictLengths::Ambiguous { message: 5, first: 2, second: 2 };
    gives(&table, lengths, &[0, 1, 1, 1, 0], &[2, 6], &[4, 1]);
}

#[test]
fn case_13_the_empty_message() {
    for code in codes_for_the_empty_message() {
        reads(&Table::of(&code), &[], ReadingLengths::One(0), &[], &[]);
    }
}

#[test]
fn case_14_the_limits() {
    for (sheet, refusal) in limit_sheets() {
        taken_in(&sheet, refusal);
    }
}

#[test]
fn openings_in_the_verdict() {
    for opening in openings() {
        let path = format!("{}/../../sheets/{}.csv", env!("CARGO_MANIFEST_DIR"), opening.sheet);
        let table = taken_in(&fs::read(path).unwrap(), None);
        assert_eq!(table, Table::of(&opening.code), "{}", opening.sheet);
        gives_verdict(&table, opening.verdict);
    }
}

/// Code T where 01 may not begin: 010 keeps one of its two readings.
#[test]
fn openings_in_readings_and_sequences() {
    let table = Table::of(&code_t().with_starts("1101"));
    reads(&table, &[0, 1, 0], ReadingLengths::One(2), &[0, 1], &[]);
    reads(&table, &[0, 0, 1, 0], ReadingLengths::Two(3, 3), &[0, 0, 1], &[0, 2, 0]);
    encodes(&table, &[0, 2, 0], &[0, 0, 1, 0]);
    does_not_read(&table, &[0, 1]);
    does_not_encode(&table, &[2, 0]);
    encodes(&table, &[], &[]);
}

#[test]
fn a_column_of_ones_changes_nothing() {
    let with = taken_in(&write_with_starts(&code_u()), None);
    assert_eq!(with, taken_in(include_bytes!("../../../sheets/code-u.csv"), None));
}

#[test]
fn start_fields_refused() {
    taken_in(include_bytes!("../../../sheets/refusal-15-start-field.csv"), Some(Refusal::StartField));
    taken_in(include_bytes!("../../../sheets/refusal-15-empty-start-field.csv"), Some(Refusal::StartField));
    taken_in(include_bytes!("../../../sheets/refusal-several-start-field.csv"), Some(Refusal::RowEntry));
    taken_in(include_bytes!("../../../sheets/refusal-6-mixed-fields.csv"), Some(Refusal::FieldCount));
}

/// A stored sheet or ban list.
fn stored(name: &str, kind: &str) -> Vec<u8> {
    fs::read(format!("{}/../../sheets/{name}.{kind}", env!("CARGO_MANIFEST_DIR"))).unwrap()
}

#[test]
fn ban_lists_in_the_verdict() {
    for case in banned() {
        let table = taken_in(&stored(case.sheet, "csv"), None);
        assert_eq!(table, Table::of(&case.code), "{}", case.sheet);
        let enlarged = enlarged_by(&table, &stored(case.sheet, "bans"), None);
        assert_eq!(enlarged, Table::of(&enlarge(&case.code, &case.bans).unwrap()), "{}", case.sheet);
        gives_verdict(&enlarged, case.verdict);
    }
}

#[test]
fn refused_ban_lists() {
    for case in refused_lists() {
        let (sheet, list) = (stored(case.name, "csv"), stored(case.name, "bans"));
        match case.refusal {
            Refusal::RowEntry => drop(taken_in(&sheet, Some(case.refusal))),
            _ => drop(enlarged_by(&taken_in(&sheet, None), &list, Some(case.refusal))),
        }
    }
}

/// A table that has copies is not enlarged again, nor one that no sheet gives.
#[test]
fn tables_that_are_not_enlarged() {
    let table = Table::of(&code_t());
    let enlarged = enlarged_by(&table, b"0,0,1", None);
    enlarged_by(&enlarged, b"", Some(Refusal::NotFromSheet));
    enlarged_by(&enlarged, b"0,0,1", Some(Refusal::NotFromSheet));
    enlarged_by(&Table { count: 33, ..table.clone() }, b"x", Some(Refusal::NotFromSheet));
    enlarged_by(&Table { originals: 3, ..table.clone() }, b"0,0,1", Some(Refusal::NotFromSheet));
    assert_eq!(enlarged_by(&table, b"", None), table);
}

/// 0, 1, 010 with bans on 0 and 010 after 0 and 1: of 010 one reading is left. Numbers of copies are nowhere met.
#[test]
fn ban_lists_in_readings_and_sequences() {
    let table = enlarged_by(&Table::of(&Code::free(&["0", "1", "010"])), b"0,0,1\r\n2,0,1\r\n", None);
    reads(&table, &[0, 1, 0], ReadingLengths::One(1), &[2], &[]);
    reads(&table, &[0, 1, 1, 0], ReadingLengths::One(4), &[0, 1, 1, 0], &[]);
    encodes(&table, &[0, 1, 1, 0], &[0, 1, 1, 0]);
    encodes(&table, &[1, 1, 2], &[1, 1, 0, 1, 0]);
    does_not_encode(&table, &[0, 1, 0]);
    does_not_encode(&table, &[0, 0, 1, 2]);
    let mut message = [MARK; 8];
    assert_eq!(Linked.encode(&table, &[0, 3], &mut message), Err(Refusal::UnknownWord));
    assert_eq!(message, [MARK; 8]);
}

#[test]
fn readings_in_the_order_of_the_originals() {
    let code = Code::free(&["1", "0", "0", "0"]).with_starts("1000");
    let table = enlarged_by(&Table::of(&code), b"0,0,1", None);
    reads(&table, &[1, 0], ReadingLengths::Two(2, 2), &[0, 1], &[0, 2]);
    reads(&table, &[1, 0, 1], ReadingLengths::Two(3, 3), &[0, 2, 0], &[0, 3, 0]);
}

#[test]
fn a_long_vowel_is_shortened() {
    let list = bans::write(&bans::of("0,1,0 1,1,0 2,1,0 3,1,0"));
    let table = enlarged_by(&Table::of(&shortening()), &list, None);
    reads(&table, &[1, 2, 1, 0], ReadingLengths::One(2), &[1, 0], &[]);
    reads(&table, &[1, 0, 1, 0, 1, 0], ReadingLengths::One(3), &[0, 0, 0], &[]);
    does_not_read(&table, &[1, 2, 1, 0, 1, 0]);
}

#[test]
fn figure_2_ambiguous_messages_of_code_t() {
    let table = Table::of(&code_t());
    for (message, first, second) in figure_2() {
        reads(&table, message, ReadingLengths::Two(2, 2), &first, &second);
        encodes(&table, &first, message);
        encodes(&table, &second, message);
    }
}

#[test]
fn figure_3_verdict_on_code_u() {
    gives(&Table::of(&code_u()), VerdictLengths::Delay(FIGURE_3_LONGEST_PATH + 1), &[], &[], &[]);
}

/// Both take in the class sheet with this refusal or none; the classes.
fn classes_taken(sheet: &[u8], refusal: Option<Refusal>) -> Entries {
    let taken = Linked.take_classes(sheet);
    assert_eq!(taken, Reference.take_classes(sheet));
    assert_eq!(taken.0, refusal, "{:?}", String::from_utf8_lossy(sheet));
    taken.1
}

#[test]
fn listed_class_sheets() {
    for (sheet, refusal) in class_sheets() {
        let classes = classes_taken(&sheet, refusal);
        assert_eq!(classes == [OTHER; 256], refusal.is_some());
    }
}

/// Both split the text so.
fn splits_by(table: &Table, classes: &Entries, text: &str, expected: &str) {
    let (text, expected) = (bytes(text), bytes(expected));
    for spare in SPARE {
        let before = (vec![MARK; 2 * text.len() + 1 + spare], lent(text.len() + spare, text.len() + 1 + spare));
        let (mut ours, mut theirs) = (before.clone(), before.clone());
        let answer = Linked.split(table, classes, &text, &mut ours.0, &mut ours.1);
        assert_eq!(answer, Reference.split(table, classes, &text, &mut theirs.0, &mut theirs.1));
        assert_eq!(ours, theirs);
        assert_eq!(answer, Ok(expected.len()));
        assert_eq!(ours.0[..expected.len()], expected);
        assert_eq!(ours.0[expected.len()..], before.0[expected.len()..]);
        let Buffers { message, first, second, working } = ours.1;
        assert!([message, first, second].iter().flatten().all(|&entry| entry == 0));
        assert!(working.iter().all(|&entry| entry == 0));
    }
}

/// Both split the text so by the Turkish letters.
fn splits(table: &Table, text: &str, expected: &str) {
    splits_by(table, &Linked.turkish_classes(), text, expected);
}

/// The words that Gönenç prints, and what the twelve types make of them.
fn printed_words() -> Vec<(String, String)> {
    let mut words: Vec<(String, String)> = Vec::new();
    for word in SPLIT_WORDS.split_whitespace() {
        words.push((word.replace('·', ""), word.to_string()));
    }
    for (list, open, close) in [(AMBIGUOUS_WORDS, '[', ']'), (UNREAD_WORDS, '(', ')')] {
        for letters in list.split_whitespace().map(|word| word.replace('·', "")) {
            words.push((letters.clone(), format!("{open}{letters}{close}")));
        }
    }
    words
}

/// Each by itself, and all in one text; by the built-in letters and by their sheet.
#[test]
fn words_that_are_printed() {
    let table = Linked.turkish();
    let words = printed_words();
    words.iter().for_each(|(text, expected)| splits(&table, text, expected));
    let (texts, expected): (Vec<String>, Vec<String>) = words.into_iter().unzip();
    splits(&table, &texts.join(" "), &expected.join(" "));
    let classes = classes_taken(TURKISH_CLASSES.replace(' ', "\r\n").as_bytes(), None);
    assert_eq!(classes, TURKISH.entries());
    splits_by(&table, &classes, &texts.join(" "), &expected.join(" "));
    splits(&Table::of(&turkish_six()), "kraliçe baba kongre farklı", "(kraliçe) ba·ba kong·re fark·lı");
}

/// With r told from the other consonants: the six types with their forms with r split as the six types do, and a code in which r may
/// stand second settles kongre.
#[test]
fn r_told_apart() {
    let sheet = TURKISH_CLASSES.replace("52,54,1", "52,52,2 53,54,1").replace("72,74,1", "72,72,2 73,74,1");
    let classes = classes_taken(sheet.replace(' ', "\r\n").as_bytes(), None);
    assert_eq!(Classes::given(&classes), Some(with_r_apart()));
    splits_by(&Table::of(&turkish_six_with_r()), &classes, "kongre KARA baba bb", "kong·re KA·RA ba·ba (bb)");
    splits_by(&Table::of(&turkish_six()), &classes, "kongre KARA baba bb", "(kongre) (KARA) ba·ba (bb)");
    let table = Table::of(&Code::free(&["10", "101", "120", "1201", "20", "201"]));
    splits_by(&table, &classes, "kongre, kontrol, matris; strateji", "kon·gre, kon·trol, [matris]; (strateji)");
}

/// Any byte but the five may be a letter.
#[test]
fn digits_as_letters() {
    let classes = classes_taken(b"30,31,0\r\n32,39,1\r\n0D,0D,0\r\n0A,0A,1\r\n00,00,0\r\n", None);
    splits_by(&Linked.turkish(), &classes, "2021 baba 29(2)\r\n\0", "20·21 baba (29)((2))\r·\n\0");
}

/// After 0 and 1 come neither 0 nor 010: of the two readings of aba one is left.
#[test]
fn ban_lists_in_splitting() {
    let table = Table::of(&Code::free(&["0", "1", "010"]));
    splits(&table, "aba abba", "[aba] a·b·b·a");
    splits(&enlarged_by(&table, b"0,0,1\r\n2,0,1\r\n", None), "aba abba", "aba a·b·b·a");
}

/// Both name this next word or refuse the message so, and leave the working buffer zero.
fn names(table: &Table, message: &[u8], answer: Result<u8, Refusal>) {
    for spare in SPARE {
        let before = vec![u64::from(MARK); VERDICT_WORKING + spare];
        let (mut ours, mut theirs) = (before.clone(), before);
        assert_eq!(Linked.next(table, message, &mut ours), answer, "{message:?}");
        assert_eq!(Reference.next(table, message, &mut theirs), answer, "{message:?}");
        assert!([ours, theirs].iter().flatten().all(|&entry| entry == 0), "{message:?}");
    }
}

#[test]
fn next_words() {
    for Lines { code, bans, lines, .. } in lines().into_iter().chain(lines_with_marks_and_bans()) {
        let table = enlarged_by(&Table::of(&code), &bans::write(&bans), None);
        lines.into_iter().for_each(|(message, answer)| names(&table, &message, answer));
    }
}

/// A line of code U as it comes in: with fewer symbols than the delay of 4 it is whole, then the first word is told.
#[test]
fn a_line_that_comes_in() {
    let (table, none) = (Table::of(&code_u()), Err(Refusal::NoReading));
    let line = joined(&code_u(), &[3, 3, 1, 0, 2]);
    let answers = [none, none, Ok(1), Ok(3), Ok(3), Ok(3), Ok(3), Ok(3), Ok(3), Ok(3), Ok(3), Ok(3)];
    assert_eq!(line.len() + 1, answers.len());
    for (symbols, answer) in answers.into_iter().enumerate() {
        names(&table, &line[..symbols], answer);
    }
    gives(&table, VerdictLengths::Delay(4), &[], &[], &[]);
}

/// Messages of as many symbols as the largest stored delay and of one more, and with the last symbol that counts changed.
#[test]
fn the_largest_delay() {
    let code = largest::delay();
    let table = taken_in(include_bytes!("../../../sheets/largest-delay.csv"), None);
    assert_eq!(table, Table::of(&code));
    gives(&table, VerdictLengths::Delay(279), &[], &[], &[]);
    for first in [0, 3, 9] {
        let mut sequence = vec![first];
        while joined(&code, &sequence).len() < 280 {
            sequence.push(code.choices(sequence.last().copied()).trailing_zeros() as u8);
        }
        let message = joined(&code, &sequence);
        names(&table, &message[..279], Ok(first));
        names(&table, &message[..280], Ok(first));
        names(&table, &[&message[..279], &[16]].concat(), Ok(first));
        names(&table, &[&message[..278], &[16]].concat(), Err(Refusal::MessageSymbol));
        names(&table, &[&message[..278], &[15]].concat(), Err(Refusal::NoReading));
    }
}
