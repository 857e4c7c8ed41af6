//! Every stored sheet gives its stored result, with the ban list beside it if there is one.

use reference::bans;
use reference::brute::by_prefixes;
use reference::code::Refusal;
use reference::encode::encode;
use reference::largest;
use reference::print::{printed, result};
use reference::read::{read, Readings};
use reference::sheet::{take_in, write};
use std::fs;
use std::path::PathBuf;

fn folder() -> PathBuf {
    PathBuf::from(env!("CARGO_MANIFEST_DIR")).join("../sheets")
}

/// A stored sheet with its ban list, empty where there is none, and the stored result.
struct Stored {
    name: String,
    sheet: Vec<u8>,
    list: Vec<u8>,
    result: Vec<u8>,
}

fn stored_sheets() -> Vec<Stored> {
    let mut paths: Vec<PathBuf> = fs::read_dir(folder()).unwrap().map(|file| file.unwrap().path()).collect();
    paths.retain(|path| path.extension().is_some_and(|extension| extension == "csv"));
    let stored = |path: PathBuf| Stored {
        name: path.file_stem().unwrap().to_string_lossy().into_owned(),
        sheet: fs::read(&path).unwrap(),
        list: fs::read(path.with_extension("bans")).unwrap_or_default(),
        result: fs::read(path.with_extension("out")).unwrap(),
    };
    paths.into_iter().map(stored).collect()
}

#[test]
fn stored_results() {
    let sheets = stored_sheets();
    for stored in &sheets {
        assert_eq!(result(&stored.sheet, &stored.list), stored.result, "{}", stored.name);
    }
    assert_eq!(sheets.len(), 75);
    assert_eq!(sheets.iter().filter(|stored| !stored.list.is_empty()).count(), 26);
}

/// The largest codes are too large for brute force.
#[test]
fn stored_results_by_brute_force() {
    for Stored { name, sheet, list, result } in stored_sheets() {
        let Ok(code) = take_in(&sheet) else { continue };
        let bans = match bans::take_in(&list, code.words.len()) {
            Ok(bans) if !name.starts_with("largest-") && !name.starts_with("bans-refusal-") => bans,
            _ => continue,
        };
        assert_eq!(by_prefixes(&code, &bans, 1_000).map(|verdict| printed(&verdict)), Some(result), "{name}");
    }
}

#[test]
fn stored_largest_codes_are_the_generated_ones() {
    let stored = |name: &str| fs::read(folder().join(name)).unwrap();
    assert_eq!(stored("largest-ambiguous.csv"), write(&largest::ambiguous()));
    assert_eq!(stored("largest-delay.csv"), write(&largest::delay()));
    assert_eq!(stored("largest-unbounded.csv"), write(&largest::unbounded()));
}

/// A Persian syllable with a consonant that steps in between occurs only inside a word.
#[test]
fn a_type_that_occurs_only_inside() {
    let code = take_in(&fs::read(folder().join("persian-inside.csv")).unwrap()).unwrap();
    let (cv, inside) = (7, 12);
    assert_eq!(read(&code, &[1, 2, 3, 2, 1]), Ok(Readings::One(vec![cv, inside])));
    assert_eq!(read(&code, &[3, 2, 1]), Err(Refusal::NoReading));
    assert_eq!(encode(&code, &[inside]), Err(Refusal::ForbiddenPair));
}

#[test]
fn each_refusal_has_a_sheet() {
    let sheets = stored_sheets();
    for (kind, numbers) in [("refusal", &[1, 2, 3, 4, 5, 6, 7, 15][..]), ("bans-refusal", &[1, 16, 17])] {
        for number in numbers {
            let start = format!("{kind}-{number}-");
            let mut named = sheets.iter().filter(|stored| stored.name.starts_with(&start)).peekable();
            assert!(named.peek().is_some(), "{start}");
            for stored in named {
                assert_eq!(stored.result, format!("refused,{number}\r\n").into_bytes(), "{}", stored.name);
            }
        }
    }
}
