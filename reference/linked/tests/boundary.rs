//! What belongs to the boundary alone: the image of a table, that of the
//! built-in code, a table too short to be read, an enlarged one too short to be
//! written, and an answer too short to be told; classes with room for them and
//! without; splitting with buffers of every length; and so the next word.

use furlazon::{split_entries, split_out, split_work, AMBIGUOUS, ANSWER_ENTRIES, CLASSES_BYTES, TABLE_BYTES};
use linked::image;
use linked::operations::refusal;
use reference::cases::{class_sheets, TURKISH_CLASSES};
use reference::classes::{self, OTHER};
use reference::code::{Code, Refusal};
use reference::letters::bytes;
use reference::operations::{Operations, Reference, VERDICT_ENTRIES, VERDICT_WORKING};
use reference::sheet::write;
use reference::split::MAX_TEXT_BYTES;

const MARK: u8 = 0x5A;
const WORD_MARK: u64 = 0x5A5A;
const SHEET: &[u8] = b"0,1,1,0,0\r\n10,1,1,1,1\r\n01,1,1,0,0\r\n101,1,1,1,1\r\n";

/// Where a word, its length, a row entry, a start mark and the counts stand in the image.
#[test]
fn places_of_the_image() {
    let mut table = [MARK; TABLE_BYTES];
    assert_eq!(furlazon::take_in(b"0,1,0,0,0\r\nAB,0,1,0,1\r\nC,1,0,1,1\r\n", &mut table), 0);
    let mut expected = [0; TABLE_BYTES];
    for (word, symbols) in [&[0][..], &[0xA, 0xB], &[0xC]].into_iter().enumerate() {
        expected[17 * word..17 * word + symbols.len()].copy_from_slice(symbols);
        expected[17 * word + 16] = symbols.len() as u8;
    }
    for (x, y) in [(1, 0), (1, 2), (2, 1), (2, 2)] {
        expected[544 + 32 * x + y] = 1;
    }
    for word in [0, 2] {
        expected[1_568 + word] = 1;
    }
    expected[1_600] = 3;
    expected[1_601] = 3;
    expected[1_602..1_605].copy_from_slice(&[0, 1, 2]);
    assert_eq!(table, expected);
}

/// Three words, a copy of 2 behind 1 and a copy of 1 behind 0.
const BANS: &[u8] = b"0,1,2\r\n1,0,1";

/// Where what belongs to copies stands in the image; what follows the image is as it was.
#[test]
fn places_of_copies_in_the_image() {
    let mut table = [0; TABLE_BYTES];
    assert_eq!(furlazon::take_in(b"0,1,1,1\r\n1,1,1,1\r\nAB,1,1,1\r\n", &mut table), 0);
    let mut enlarged = [MARK; TABLE_BYTES + 3];
    assert_eq!(furlazon::enlarge(&table, BANS, &mut enlarged), 0);
    let mut expected = [0; TABLE_BYTES + 3];
    for (word, symbols) in [&[0][..], &[1], &[0xA, 0xB], &[0xA, 0xB], &[1]].into_iter().enumerate() {
        expected[17 * word..17 * word + symbols.len()].copy_from_slice(symbols);
        expected[17 * word + 16] = symbols.len() as u8;
    }
    let rows = [[1, 1, 1, 0, 1], [0, 1, 1, 1, 0], [1, 0, 1, 1, 0], [0, 1, 0, 0, 1], [1, 0, 0, 0, 0]];
    for (x, row) in rows.iter().enumerate() {
        expected[544 + 32 * x..544 + 32 * x + 5].copy_from_slice(row);
    }
    expected[1_568..1_573].copy_from_slice(&[1, 1, 1, 0, 0]);
    expected[1_600] = 5;
    expected[1_601] = 3;
    expected[1_602..1_607].copy_from_slice(&[0, 1, 2, 2, 1]);
    expected[1_634..1_639].copy_from_slice(&[0, 0, 0, 1, 0]);
    expected[TABLE_BYTES..].fill(MARK);
    assert_eq!(enlarged, expected);
    assert_eq!(TABLE_BYTES, 1_634 + 32);
}

/// Without a ban the enlarged image is the table's.
#[test]
fn an_image_without_copies_stays() {
    let (table, _) = tables();
    for list in [&b""[..], b"0,0,1"] {
        let mut enlarged = vec![MARK; TABLE_BYTES];
        assert_eq!(furlazon::enlarge(&table, list, &mut enlarged), 0);
        assert_eq!(enlarged == table, list.is_empty());
    }
}

/// The built-in code with room for its image or not; what follows the image is as it was.
#[test]
fn room_for_the_turkish_types() {
    let image = image::pack(&Reference.turkish());
    for room in [0, 1, TABLE_BYTES - 1, TABLE_BYTES, TABLE_BYTES + 1, 2 * TABLE_BYTES] {
        let mut table = vec![MARK; room];
        let mut expected = table.clone();
        let written = expected.get_mut(..TABLE_BYTES).map(|start| start.copy_from_slice(&image));
        let short = written.is_none().then_some(Refusal::ShortBuffer);
        assert_eq!(refusal(furlazon::turkish(&mut table)), short, "room of {room}");
        assert_eq!(table, expected, "room of {room}");
    }
}

/// The built-in code has the image that its sheet gives, and the other functions take it.
#[test]
fn the_turkish_types_are_a_table() {
    let [mut table, mut taken, mut enlarged] = [[MARK; TABLE_BYTES]; 3];
    assert_eq!(furlazon::turkish(&mut table), 0);
    assert_eq!(furlazon::take_in(include_bytes!("../../../sheets/turkish-twelve.csv"), &mut taken), 0);
    assert_eq!(table, taken);

    let [mut message, mut first, mut second] = [(); 3].map(|()| vec![MARK; VERDICT_ENTRIES]);
    let (mut work, mut answer) = (vec![WORD_MARK; VERDICT_WORKING], [WORD_MARK; ANSWER_ENTRIES]);
    assert_eq!(furlazon::verdict(&table, &mut message, &mut first, &mut second, &mut work, &mut answer), 0);
    assert_eq!(answer, [AMBIGUOUS, 5, 2, 2]);
    assert_eq!((&message[..5], &first[..2], &second[..2]), (&[0, 1, 1, 1, 0][..], &[2, 6][..], &[4, 1][..]));

    assert_eq!(furlazon::enlarge(&table, b"0,0,1", &mut enlarged), 0);
    let (refused, expected) = Reference.enlarge(&Reference.turkish(), b"0,0,1");
    assert_eq!((refused, expected.count), (None, 13));
    assert_eq!(enlarged, image::pack(&expected));
}

/// Refusals of enlarging with images of every kind, and room for the enlarged
/// one or not; nothing may change.
#[test]
fn short_images_of_enlarging() {
    let (table, none) = tables();
    let mut with_copies = vec![0; TABLE_BYTES];
    assert_eq!(furlazon::enlarge(&table, b"0,0,1", &mut with_copies), 0);
    let too_long = [b'0'; 4_097];
    let mut full = vec![0; TABLE_BYTES];
    assert_eq!(furlazon::take_in(&write(&Code::free(&["0"; 32])), &mut full), 0);
    let (short, number) = (Refusal::ShortBuffer, |refusal: Refusal| u64::from(refusal.number()));
    // The image, the list, the refusal with room for the enlarged image if there is one, and that without room.
    type Case<'a> = (&'a [u8], &'a [u8], Option<Refusal>, Refusal);
    let cases: [Case; 12] = [
        (&table, b"", None, short),
        (&table, b"0,0,1\r\n", None, short),
        (&table, &too_long, Some(Refusal::SheetLength), Refusal::SheetLength),
        (&none, b"0,0,1", Some(Refusal::NotFromSheet), Refusal::NotFromSheet),
        (&none, &too_long, Some(Refusal::SheetLength), Refusal::SheetLength),
        (&with_copies, b"", Some(Refusal::NotFromSheet), Refusal::NotFromSheet),
        (&with_copies, b"0,0,1", Some(Refusal::NotFromSheet), Refusal::NotFromSheet),
        (&table, b"0,0,0", Some(Refusal::BanRecord), short),
        (&full, b"0,0,1", Some(Refusal::BanLimit), short),
        (&table[..TABLE_BYTES - 1], b"", Some(short), short),
        (&table[..TABLE_BYTES - 1], &too_long, Some(short), short),
        (&[], &too_long, Some(short), short),
    ];
    for (image, list, with_room, without_room) in cases {
        for room in [0, 1, TABLE_BYTES - 1, TABLE_BYTES, TABLE_BYTES + 3] {
            let mut enlarged = vec![MARK; room];
            let expected = if room < TABLE_BYTES { Some(without_room) } else { with_room };
            let refused = furlazon::enlarge(image, list, &mut enlarged);
            assert_eq!(refused, expected.map_or(0, number), "room of {room}, list {list:?}");
            let unchanged = if expected.is_some() { 0 } else { TABLE_BYTES };
            assert!(enlarged[unchanged..].iter().all(|&entry| entry == MARK));
        }
    }
}

/// Lengths of `classes`: none, too short by one, exact, and longer.
const ROOMS: [usize; 6] = [0, 1, CLASSES_BYTES - 1, CLASSES_BYTES, CLASSES_BYTES + 1, 2 * CLASSES_BYTES];

/// What a call that writes classes leaves in a buffer of this length, full of a mark before.
fn classes_left(room: usize, entries: Option<&[u8; CLASSES_BYTES]>) -> Vec<u8> {
    let mut left = vec![MARK; room];
    if let Some(entries) = entries {
        left[..CLASSES_BYTES].copy_from_slice(entries);
    }
    left
}

/// Class sheets with room for the classes and without. Of the sheet's refusal
/// and that of the short buffer the lower is returned: 1 before 13, and 13
/// before 18 to 20. A refusal changes nothing, and what follows the classes is
/// as it was.
#[test]
fn room_for_classes() {
    for (sheet, own) in class_sheets() {
        for room in ROOMS {
            let short = (room < CLASSES_BYTES).then_some(Refusal::ShortBuffer);
            let expected = own.into_iter().chain(short).min();
            let mut buffer = vec![MARK; room];
            let refused = refusal(furlazon::take_classes(&sheet, &mut buffer));
            assert_eq!(refused, expected, "room of {room}, sheet {:?}", String::from_utf8_lossy(&sheet));
            let entries = Reference.take_classes(&sheet).1;
            assert!(buffer == classes_left(room, expected.is_none().then_some(&entries)), "room of {room}");
        }
    }
}

/// The order of the refusals by their numbers, with a buffer of 255 entries and one of 256.
#[test]
fn short_classes_between_the_refusals_of_a_sheet() {
    let cases: [(&[u8], u64, u64); 6] = [
        (b"", 1, 1),
        (&[b'0'; 4_097], 1, 1),
        (b"61,61,0", 13, 0),
        (b"61,61,0\r\n28,28,0\r\n", 13, 18),
        (b"62,61,0", 13, 19),
        (b"61,61,0\r\n61,61,0", 13, 20),
    ];
    for (sheet, short, exact) in cases {
        let mut buffer = [MARK; CLASSES_BYTES];
        assert_eq!(furlazon::take_classes(sheet, &mut buffer[..CLASSES_BYTES - 1]), short);
        assert_eq!(buffer, [MARK; CLASSES_BYTES]);
        assert_eq!(furlazon::take_classes(sheet, &mut buffer), exact);
        assert_eq!(buffer == [MARK; CLASSES_BYTES], exact != 0);
    }
}

/// Where the entries stand: one for each byte, its symbol or 16.
#[test]
fn places_of_classes() {
    let mut buffer = [MARK; CLASSES_BYTES + 1];
    assert_eq!(furlazon::take_classes(b"FD,FF,F\r\n00,00,A\r\n61,62,0", &mut buffer), 0);
    let mut expected = [OTHER; CLASSES_BYTES + 1];
    expected[0xFD..=0xFF].fill(15);
    expected[0] = 10;
    expected[0x61..=0x62].fill(0);
    expected[CLASSES_BYTES] = MARK;
    assert_eq!(buffer, expected);
}

/// The built-in classes, with room for them and without; the sheet of the Turkish letters gives the same.
#[test]
fn room_for_the_turkish_letters() {
    let entries = Reference.turkish_classes();
    for room in ROOMS {
        let short = (room < CLASSES_BYTES).then_some(Refusal::ShortBuffer);
        let mut buffer = vec![MARK; room];
        assert_eq!(refusal(furlazon::turkish_classes(&mut buffer)), short, "room of {room}");
        assert_eq!(buffer, classes_left(room, short.is_none().then_some(&entries)), "room of {room}");
    }
    let mut taken = [MARK; CLASSES_BYTES];
    assert_eq!(furlazon::take_classes(TURKISH_CLASSES.replace(' ', "\r\n").as_bytes(), &mut taken), 0);
    assert_eq!(taken, entries);
}

fn turkish_classes() -> [u8; CLASSES_BYTES] {
    let mut classes = [MARK; CLASSES_BYTES];
    assert_eq!(furlazon::turkish_classes(&mut classes), 0);
    classes
}

fn tables() -> (Vec<u8>, Vec<u8>) {
    let mut table = vec![0; TABLE_BYTES];
    assert_eq!(furlazon::take_in(SHEET, &mut table), 0);
    let mut none = table.clone();
    none[1_600] = 0;
    (table, none)
}

/// A table's image, classes and a text, and the refusal of splitting.
type Splitting<'a> = (&'a [u8], &'a [u8], &'a [u8], Refusal);

/// Refusals of each operation with answers of every length that is too short,
/// with buffers that are long enough and with none; nothing may change.
#[test]
fn short_answers() {
    let (table, none) = tables();
    let (letters, no_letters) = (turkish_classes(), [OTHER; CLASSES_BYTES]);
    let long: Vec<u8> = [1].repeat(Code::MAX_MESSAGE_SYMBOLS);
    let too_long = [long.as_slice(), &[1]].concat();
    for entries in 0..ANSWER_ENTRIES {
        for room in [0, VERDICT_ENTRIES] {
            let mut answer = vec![WORD_MARK; entries];
            let [mut message, mut first, mut second] = [(); 3].map(|()| vec![MARK; room]);
            let mut work = vec![WORD_MARK; 2 * room];
            let encodings: [(&[u8], &[u8], Refusal); 7] = [
                (&none, &[9], Refusal::NotFromSheet),
                (&table, &[2, 0, 9], Refusal::UnknownWord),
                (&table, &[2, 0], Refusal::ForbiddenPair),
                (&table, &long, Refusal::MessageLength),
                (&table, &[2, 3], Refusal::ShortBuffer),
                (&table, &[], Refusal::ShortBuffer),
                (&table[..TABLE_BYTES - 1], &[9], Refusal::ShortBuffer),
            ];
            for (table, words, expected) in encodings {
                let refused = furlazon::encode(table, words, &mut message, &mut answer);
                assert_eq!(refusal(refused), Some(expected), "encoding with {entries} entries");
            }
            let readings: [(&[u8], &[u8], Refusal); 7] = [
                (&none, &[16], Refusal::NotFromSheet),
                (&table, &too_long, Refusal::MessageLength),
                (&table, &[16], Refusal::MessageSymbol),
                (&table, &[1], Refusal::ShortBuffer),
                (&table, &[0, 1], Refusal::ShortBuffer),
                (&table, &[], Refusal::ShortBuffer),
                (&table[..TABLE_BYTES - 1], &[16], Refusal::ShortBuffer),
            ];
            for (table, symbols, expected) in readings {
                let refused = furlazon::read(table, symbols, &mut first, &mut second, &mut work, &mut answer);
                assert_eq!(refusal(refused), Some(expected), "reading with {entries} entries");
            }
            let splittings: [Splitting; 10] = [
                (&none, &letters, b"a", Refusal::NotFromSheet),
                (&none, &letters, &too_long, Refusal::NotFromSheet),
                (&table, &no_letters, b"a", Refusal::NotFromSheet),
                (&table, &no_letters, &too_long, Refusal::NotFromSheet),
                (&table, &letters, &too_long, Refusal::MessageLength),
                (&table, &letters, b"a", Refusal::ShortBuffer),
                (&table, &letters, b"", Refusal::ShortBuffer),
                (&table[..TABLE_BYTES - 1], &letters, &too_long, Refusal::ShortBuffer),
                (&table, &letters[1..], &too_long, Refusal::ShortBuffer),
                (&none, &no_letters[1..], b"a", Refusal::ShortBuffer),
            ];
            let mut out = vec![MARK; room];
            for (table, classes, text, expected) in splittings {
                let refused = furlazon::split(
                    table,
                    classes,
                    text,
                    &mut out,
                    &mut message,
                    &mut first,
                    &mut second,
                    &mut work,
                    &mut answer,
                );
                assert_eq!(refusal(refused), Some(expected), "splitting with {entries} entries");
            }
            let lines: [(&[u8], &[u8], Refusal); 8] = [
                (&none, &[16], Refusal::NotFromSheet),
                (&none, &too_long, Refusal::NotFromSheet),
                (&table, &too_long, Refusal::MessageLength),
                (&table, &[16], Refusal::ShortBuffer),
                (&table, &[1], Refusal::ShortBuffer),
                (&table, &[0, 1], Refusal::ShortBuffer),
                (&table, &[], Refusal::ShortBuffer),
                (&table[..TABLE_BYTES - 1], &too_long, Refusal::ShortBuffer),
            ];
            for (table, symbols, expected) in lines {
                let refused = furlazon::next(table, symbols, &mut work, &mut answer);
                assert_eq!(refusal(refused), Some(expected), "next word with {entries} entries");
            }
            let verdicts: [(&[u8], Refusal); 3] = [
                (&none, Refusal::NotFromSheet),
                (&table, Refusal::ShortBuffer),
                (&none[..TABLE_BYTES - 1], Refusal::ShortBuffer),
            ];
            for (table, expected) in verdicts {
                let refused = furlazon::verdict(table, &mut message, &mut first, &mut second, &mut work, &mut answer);
                assert_eq!(refusal(refused), Some(expected), "verdict with {entries} entries");
            }
            assert!([&out, &message, &first, &second].into_iter().flatten().all(|&entry| entry == MARK));
            assert!([&work, &answer].into_iter().flatten().all(|&entry| entry == WORD_MARK));
        }
    }
}

/// The buffers of a splitting, each full of a mark.
#[derive(Clone, PartialEq, Debug)]
struct Lent {
    /// `out`, `message`, `first` and `second`.
    bytes: [Vec<u8>; 4],
    work: Vec<u64>,
    answer: Vec<u64>,
}

impl Lent {
    /// As many entries as a text of this length needs, and so many more.
    fn new(length: usize, more: usize) -> Lent {
        let entries = split_entries(length);
        let needed = [split_out(length), entries, entries, entries];
        Lent {
            bytes: needed.map(|entries| vec![MARK; entries + more]),
            work: vec![WORD_MARK; split_work(length) + more],
            answer: vec![WORD_MARK; ANSWER_ENTRIES + more],
        }
    }

    /// Takes the last entry from one of the six buffers; false where it has none.
    fn shorten(&mut self, buffer: usize) -> bool {
        match buffer {
            0..=3 => self.bytes[buffer].pop().is_some(),
            4 => self.work.pop().is_some(),
            _ => self.answer.pop().is_some(),
        }
    }

    fn split(&mut self, table: &[u8], classes: &[u8], text: &[u8]) -> Option<Refusal> {
        let [out, message, first, second] = &mut self.bytes;
        refusal(furlazon::split(table, classes, text, out, message, first, second, &mut self.work, &mut self.answer))
    }

    /// What a splitting with this output leaves.
    fn after(mut self, output: &[u8]) -> Lent {
        let [out, zero @ ..] = &mut self.bytes;
        out[..output.len()].copy_from_slice(output);
        zero.iter_mut().for_each(|buffer| buffer.fill(0));
        self.work.fill(0);
        self.answer[..ANSWER_ENTRIES].copy_from_slice(&[output.len() as u64, 0, 0, 0]);
        self
    }
}

/// Texts, and what the twelve Turkish types make of them.
const TEXTS: [(&str, &str); 9] = [
    ("", ""),
    ("o", "o"),
    ("b", "(b)"),
    ("baba", "ba·ba"),
    ("kongre", "[kongre]"),
    ("12/5 ·()[]", "12/5 ·()[]"),
    ("Kraliçe, KONGRE!\r\n", "Kra·li·çe, [KONGRE]!\r\n"),
    ("b b b", "(b) (b) (b)"),
    ("ığdır İĞDIR taxi", "ığ·dır İĞ·DIR taxi"),
];

/// With buffers of the lengths that are needed and longer ones, the output, and zero in each of the other buffers whole. Of a longer
/// image and of longer classes only the start is read.
#[test]
fn texts_are_split() {
    let mut table = [MARK; TABLE_BYTES + 1];
    assert_eq!(furlazon::turkish(&mut table), 0);
    let mut classes = [MARK; CLASSES_BYTES + 1];
    assert_eq!(furlazon::turkish_classes(&mut classes), 0);
    for (text, expected) in TEXTS {
        let (text, expected) = (bytes(text), bytes(expected));
        for more in [0, 1, 20] {
            for longer in [0, 1] {
                let mut lent = Lent::new(text.len(), more);
                let after = lent.clone().after(&expected);
                let (table, classes) = (&table[..TABLE_BYTES + longer], &classes[..CLASSES_BYTES + longer]);
                assert_eq!(lent.split(table, classes, &text), None);
                assert_eq!(lent, after, "{more} entries more");
            }
        }
    }
}

/// Each buffer one entry too short by itself, and all of them empty; nothing may change.
#[test]
fn short_buffers_of_splitting() {
    let mut table = [0; TABLE_BYTES];
    assert_eq!(furlazon::turkish(&mut table), 0);
    let classes = turkish_classes();
    for (text, _) in TEXTS {
        let text = bytes(text);
        for buffer in 0..6 {
            let mut lent = Lent::new(text.len(), 0);
            if !lent.shorten(buffer) {
                continue;
            }
            let before = lent.clone();
            assert_eq!(lent.split(&table, &classes, &text), Some(Refusal::ShortBuffer), "buffer {buffer}");
            assert_eq!(lent, before, "buffer {buffer}");
        }
        let mut none = Lent { bytes: [(); 4].map(|()| Vec::new()), work: Vec::new(), answer: Vec::new() };
        assert_eq!(none.split(&table, &classes, &text), Some(Refusal::ShortBuffer));
    }
}

/// Refusal 8, for the table or for the classes, comes before 11 and 11 before
/// 13; an image or classes that are too short get 13 before all. With room for
/// everything, without, and with one buffer too short, nothing changes.
#[test]
fn order_of_the_refusals_of_splitting() {
    let (table, none) = tables();
    let mut copies = vec![0; TABLE_BYTES];
    assert_eq!(furlazon::enlarge(&table, b"0,0,1", &mut copies), 0);
    let mut wrong_copies = copies.clone();
    wrong_copies[1_634 + 4] = 4;
    let too_long = vec![b'a'; MAX_TEXT_BYTES + 1];
    let letters = turkish_classes();
    let changed = |at: u8, entry: u8| {
        let mut classes = letters;
        classes[at as usize] = entry;
        classes
    };
    let mut no_classes = vec![[OTHER; CLASSES_BYTES], [MARK; CLASSES_BYTES]];
    no_classes.extend([(0x20, 17), (0xFF, 255), (0x61, 17), (0xB7, 17)].map(|(at, entry)| changed(at, entry)));
    no_classes.extend(classes::RESERVED.map(|byte| changed(byte, 0)));
    let short_image = &none[..TABLE_BYTES - 1];
    let mut cases: Vec<Splitting> = vec![
        (&none, &letters, b"", Refusal::NotFromSheet),
        (&none, &letters, b"baba", Refusal::NotFromSheet),
        (&none, &letters, &too_long, Refusal::NotFromSheet),
        (&wrong_copies, &letters, b"1", Refusal::NotFromSheet),
        (&wrong_copies, &letters, &too_long, Refusal::NotFromSheet),
        (&table, &letters, &too_long, Refusal::MessageLength),
        (&copies, &letters, &too_long, Refusal::MessageLength),
        (short_image, &letters, b"", Refusal::ShortBuffer),
        (short_image, &letters, &too_long, Refusal::ShortBuffer),
        (short_image, &no_classes[0], &too_long, Refusal::ShortBuffer),
        (&[], &letters, &too_long, Refusal::ShortBuffer),
        (&table, &letters[1..], b"", Refusal::ShortBuffer),
        (&table, &letters[1..], &too_long, Refusal::ShortBuffer),
        (&none, &letters[1..], b"baba", Refusal::ShortBuffer),
        (&none, &no_classes[0][1..], &too_long, Refusal::ShortBuffer),
        (&none, &[], b"", Refusal::ShortBuffer),
    ];
    for classes in &no_classes {
        let text: &[u8] = if classes[0xFF] == OTHER { &too_long } else { b"baba" };
        cases.extend([
            (&table[..], &classes[..], text, Refusal::NotFromSheet),
            (&copies, classes, b"", Refusal::NotFromSheet),
        ]);
    }
    for (table, classes, text, expected) in cases {
        for room in [0, text.len()] {
            for short in (0..6).map(Some).chain([None]) {
                let mut lent = Lent::new(room, 0);
                short.map(|buffer| lent.shorten(buffer));
                let before = lent.clone();
                assert_eq!(lent.split(table, classes, text), Some(expected), "{} bytes, room of {room}", text.len());
                assert_eq!(lent, before);
            }
        }
    }
}

/// A text as long as may be, with exact buffers and with each one entry too short.
#[test]
fn the_longest_text() {
    let mut table = [0; TABLE_BYTES];
    assert_eq!(furlazon::turkish(&mut table), 0);
    let classes = turkish_classes();
    let words = b"b ".repeat(MAX_TEXT_BYTES / 2);
    let vowels = vec![b'a'; MAX_TEXT_BYTES];
    let dotted: Vec<u8> = b"a\xB7".repeat(MAX_TEXT_BYTES)[..2 * MAX_TEXT_BYTES - 1].to_vec();
    for (text, expected) in [(words, b"(b) ".repeat(MAX_TEXT_BYTES / 2)), (vowels, dotted)] {
        let mut lent = Lent::new(text.len(), 0);
        let after = lent.clone().after(&expected);
        assert_eq!(lent.split(&table, &classes, &text), None);
        assert!(lent == after);
        for buffer in 0..6 {
            let mut lent = Lent::new(text.len(), 0);
            lent.shorten(buffer);
            let before = lent.clone();
            assert_eq!(lent.split(&table, &classes, &text), Some(Refusal::ShortBuffer));
            assert!(lent == before, "buffer {buffer}");
        }
    }
}

/// A table's image, a message, and what the next word is with room for all: its number or the refusal.
type Line<'a> = (&'a [u8], &'a [u8], Result<u64, Refusal>);

/// The next word with this room in `work` and `answer`. It is the refusal
/// that comes first of those that hold, which has 13 after 8 and 11 and before
/// the others; after 8, 11 and 13 nothing is changed, and else `work` is zero.
fn names((table, message, with_room): Line, room: usize, entries: usize) {
    let [mut work, mut answer] = [room, entries].map(|length| vec![WORD_MARK; length]);
    let early = [Refusal::NotFromSheet, Refusal::MessageLength, Refusal::ShortBuffer].map(Err).contains(&with_room);
    let is_short = room < VERDICT_WORKING || entries < ANSWER_ENTRIES;
    let expected = if is_short && !early { Err(Refusal::ShortBuffer) } else { with_room };
    let case = format!("{} bytes, {} symbols, room of {room}, {entries} entries", table.len(), message.len());
    let refused = refusal(furlazon::next(table, message, &mut work, &mut answer));
    assert_eq!(refused, expected.err(), "{case}");
    let left = if early || is_short { WORD_MARK } else { 0 };
    assert!(work.iter().all(|&entry| entry == left), "{case}");
    let written = expected.map_or(Vec::new(), |word| vec![word, 0, 0, 0]);
    assert_eq!(answer[..written.len()], written, "{case}");
    assert!(answer[written.len()..].iter().all(|&entry| entry == WORD_MARK), "{case}");
}

/// With working buffers and answers that are exact, longer and too short: code
/// U, with copies and without, whose delay is 4; a code without a finite one,
/// one with delay 0, images that no sheet gives and images that are too short.
#[test]
fn next_words_with_room_and_without() {
    let (table, none) = tables();
    let [mut copies, mut ambiguous, mut one_word] = [(); 3].map(|()| vec![0; TABLE_BYTES]);
    assert_eq!(furlazon::enlarge(&table, b"0,2,1", &mut copies), 0);
    assert_eq!(furlazon::turkish(&mut ambiguous), 0);
    assert_eq!(furlazon::take_in(b"0,1", &mut one_word), 0);
    let longer = [&table[..], &[MARK; 3]].concat();
    let long = vec![16; Code::MAX_MESSAGE_SYMBOLS];
    let too_long = [&long[..], &[16]].concat();
    let high_behind = [&[1, 0, 1, 1], &long[4..]].concat();
    let mut cases: Vec<Line> = vec![
        (&one_word, &[0], Ok(0)),
        (&one_word, &long, Ok(0)),
        (&one_word, &[], Err(Refusal::NoReading)),
        (&longer, &[0, 1, 1, 0], Ok(2)),
    ];
    for table in [&table, &copies] {
        cases.extend::<[Line; 8]>([
            (table, &[0, 1, 1, 0, 1], Ok(2)),
            (table, &[1, 0, 1, 1], Ok(3)),
            (table, &high_behind, Ok(3)),
            (table, &[1, 0, 1, 16], Err(Refusal::MessageSymbol)),
            (table, &long, Err(Refusal::MessageSymbol)),
            (table, &[1], Err(Refusal::NoReading)),
            (table, &[], Err(Refusal::NoReading)),
            (table, &too_long, Err(Refusal::MessageLength)),
        ]);
    }
    cases.push((&ambiguous, &too_long, Err(Refusal::MessageLength)));
    for message in [&[][..], &[0], &[16], &long] {
        cases.push((&ambiguous, message, Err(Refusal::NoFiniteDelay)));
    }
    for message in [&[][..], &[0], &[16], &long, &too_long] {
        cases.push((&none, message, Err(Refusal::NotFromSheet)));
        cases.push((&table[..TABLE_BYTES - 1], message, Err(Refusal::ShortBuffer)));
        cases.push((&[], message, Err(Refusal::ShortBuffer)));
    }
    for case in cases {
        for room in [0, 1, VERDICT_WORKING - 1, VERDICT_WORKING, VERDICT_WORKING + 3] {
            (0..=ANSWER_ENTRIES + 2).for_each(|entries| names(case, room, entries));
        }
    }
}
