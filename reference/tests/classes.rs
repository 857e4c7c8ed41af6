//! Class sheets: the refusals in their order, the letters of Turkish, every
//! range, and the classes that no sheet gives.

use reference::cases::{class_sheets, largest_class_sheet, TURKISH_CLASSES};
use reference::classes::{of, take_in, write, Classes, Entries, Record, OTHER, RESERVED};
use reference::code::Refusal;
use reference::generate;
use reference::letters::{with_r_apart, TURKISH};
use reference::operations::{Operations, Reference};
use reference::random::Random;

#[test]
fn listed_sheets() {
    let mut met = [0; 21];
    for (sheet, refusal) in class_sheets() {
        let text = String::from_utf8_lossy(&sheet);
        assert_eq!(take_in(&sheet).err(), refusal, "{text:?}");
        let (refused, entries) = Reference.take_classes(&sheet);
        assert_eq!((refused, entries == [OTHER; 256]), (refusal, refusal.is_some()), "{text:?}");
        met[refusal.map_or(0, Refusal::number) as usize] += 1;
    }
    println!("{} accepted; refused 1: {}, 18: {}, 19: {}, 20: {}", met[0], met[1], met[18], met[19], met[20]);
    assert!([0, 1, 18, 19, 20].iter().all(|&number| met[number] > 3), "{met:?}");
}

/// Written by hand, the sheet gives the built-in classes, and it is the shortest that does.
#[test]
fn the_turkish_sheet() {
    assert_eq!(of(TURKISH_CLASSES), *TURKISH);
    let lines: String = TURKISH_CLASSES.split(' ').map(|record| format!("{record}\r\n")).collect();
    assert_eq!(write(&TURKISH.runs()), lines.as_bytes());
    assert_eq!(Reference.turkish_classes(), Reference.take_classes(lines.as_bytes()).1);
    let apart = TURKISH_CLASSES.replace("52,54,1", "52,52,2 53,54,1").replace("72,74,1", "72,72,2 73,74,1");
    assert_eq!(of(&apart), with_r_apart());
}

/// Every sheet of one record.
#[test]
fn every_range() {
    for lowest in 0..=255u8 {
        for highest in 0..=255u8 {
            let symbol = (lowest ^ highest) & 15;
            let taken = take_in(format!("{lowest:02X},{highest:02X},{symbol:X}").as_bytes());
            let takes_in = |&byte: &u8| lowest <= byte && byte <= highest;
            if RESERVED.iter().any(takes_in) {
                assert_eq!(taken, Err(Refusal::ClassRecord), "{lowest:02X} {highest:02X}");
            } else if lowest > highest {
                assert_eq!(taken, Err(Refusal::ClassRange), "{lowest:02X} {highest:02X}");
            } else {
                let classes = taken.unwrap();
                assert!((0..=255).all(|byte| classes.symbol(byte) == takes_in(&byte).then_some(symbol)));
            }
        }
    }
}

/// Every two ranges over seven bytes, the upside-down ones too.
#[test]
fn every_two_ranges() {
    let bytes = b'a'..=b'g';
    let ends: Vec<(u8, u8)> = bytes.clone().flat_map(|low| bytes.clone().map(move |high| (low, high))).collect();
    let (mut apart, mut overlap) = (0, 0);
    for &(a, b) in &ends {
        for &(c, d) in &ends {
            let records = [Record { lowest: a, highest: b, symbol: 3 }, Record { lowest: c, highest: d, symbol: 12 }];
            let taken = take_in(&write(&records));
            let times = |byte: u8| usize::from(a <= byte && byte <= b) + usize::from(c <= byte && byte <= d);
            if a > b || c > d {
                assert_eq!(taken, Err(Refusal::ClassRange));
            } else if bytes.clone().any(|byte| times(byte) == 2) {
                assert_eq!(taken, Err(Refusal::ClassOverlap));
                overlap += 1;
            } else {
                let symbol = |byte: u8| (times(byte) == 1).then_some(if a <= byte && byte <= b { 3 } else { 12 });
                assert!((0..=255).all(|byte| taken.as_ref().unwrap().symbol(byte) == symbol(byte)));
                apart += 1;
            }
        }
    }
    // Two ranges apart have four ends in seven bytes, of which those of one range may be the same.
    assert_eq!((apart, overlap), (2 * 126, 28 * 28 - 2 * 126));
}

/// A record for each byte that may be a letter. One more record takes in one of them again.
#[test]
fn the_largest_sheet() {
    let largest = largest_class_sheet();
    assert_eq!(largest.len(), 251 * 9);
    let classes = take_in(&largest).unwrap();
    assert_eq!(classes.bytes(None), [b'(', b')', b'[', b']', 0xB7]);
    for byte in 0..=255u8 {
        let more = [&largest[..], format!("{byte:02X},{byte:02X},0").as_bytes()].concat();
        let refusal = if RESERVED.contains(&byte) { Refusal::ClassRecord } else { Refusal::ClassOverlap };
        assert_eq!(take_in(&more), Err(refusal));
    }
}

/// Does the sheet with a record for each letter give these entries?
fn from_a_sheet(entries: &Entries) -> bool {
    let letters = (0..=255u8).map(|byte| (byte, entries[byte as usize])).filter(|&(_, entry)| entry < 16);
    let sheet: String = letters.map(|(byte, entry)| format!("{byte:02X},{byte:02X},{entry:X}\r\n")).collect();
    let symbols = |entry: &u8| (*entry < 16).then_some(*entry);
    take_in(sheet.as_bytes()).is_ok_and(|classes| {
        classes.0.iter().zip(entries).all(|(&symbol, entry)| symbol == symbols(entry) && *entry <= 16)
    })
}

/// Changes of every single entry, of the Turkish classes and of others.
#[test]
fn classes_that_no_sheet_gives() {
    let largest = take_in(&largest_class_sheet()).unwrap();
    let mut met = [0; 2];
    for classes in [&TURKISH, &of("61,61,0"), &largest, &Classes::NONE] {
        for at in 0..256 {
            for entry in (0..=17).chain([31, 32, 127, 128, 254, 255]) {
                let mut entries = classes.entries();
                entries[at] = entry;
                let given = Classes::given(&entries);
                assert_eq!(given.is_some(), from_a_sheet(&entries), "{at:02X} {entry}");
                met[usize::from(given.is_some())] += 1;
                assert!(given.is_none_or(|classes| classes.entries() == entries));
            }
        }
    }
    println!("{} that no sheet gives, {} that one does", met[0], met[1]);
    assert_eq!(Classes::given(&[OTHER; 256]), None);
}

#[test]
fn generated_classes() {
    let mut random = Random(1);
    let mut given = 0;
    for _ in 0..5_000 {
        let classes = take_in(&generate::class_sheet(&mut random)).unwrap();
        assert_eq!(Classes::given(&classes.entries()).as_ref(), Some(&classes));
        assert_eq!(take_in(&write(&classes.runs())).as_ref(), Ok(&classes));
        let entries = generate::class_entries(&mut random, &classes);
        assert_eq!(Classes::given(&entries).is_some(), from_a_sheet(&entries));
        given += usize::from(from_a_sheet(&entries));
    }
    assert!((4_000..4_800).contains(&given), "{given}");
}
