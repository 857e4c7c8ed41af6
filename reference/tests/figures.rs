//! Figures 2 and 3 of Gönenç: ambiguous messages of code T, testing table of code U.

use reference::brute::{by_prefixes, readings};
use reference::cases::{code_t, code_u, figure_2, FIGURE_3_LONGEST_PATH};
use reference::code::Code;
use reference::encode::encode;
use reference::pairs::{explore, Places};
use reference::read::{read, Readings};
use reference::rivals::Rivals;
use reference::verdict::Verdict;

#[test]
fn figure_2_ambiguous_messages_of_code_t() {
    let code = code_t();
    for (message, first, second) in figure_2() {
        assert_eq!(read(&code, message), Ok(Readings::Two(first.to_vec(), second.to_vec())));
        assert_eq!(readings(&code, &[], message), [first, second]);
        assert_eq!(encode(&code, &first).as_deref(), Ok(message));
        assert_eq!(encode(&code, &second).as_deref(), Ok(message));
    }
}

/// The name a place has in the figure: QA for the end of A, C1 inside C.
fn name(code: &Code, places: &Places, place: u8) -> String {
    let word = places.first.iter().rposition(|&first| first <= place).unwrap();
    let letter = (b'A' + word as u8) as char;
    let read = place - places.first[word] + 1;
    if read as usize == code.words[word].len() {
        format!("Q{letter}")
    } else {
        format!("{letter}{read}")
    }
}

#[test]
fn figure_3_testing_table_of_code_u() {
    let code = code_u();
    let places = Places::new(&code);
    let graph = explore(&code, &Rivals::of(&code));
    let named = |number: u32| {
        let (p, q) = graph.pairs[number as usize];
        let (p, q) = (name(&code, &places, p), name(&code, &places, q));
        // The figure names an end first.
        if q.starts_with('Q') {
            format!("{q} {p}")
        } else {
            format!("{p} {q}")
        }
    };
    let mut pairs: Vec<String> = (0..graph.pairs.len() as u32).map(named).collect();
    pairs.sort();
    assert_eq!(pairs, ["B1 D1", "QA C1", "QB D2", "QC B1", "QC D1", "QD B1", "QD D1"]);
    let mut table: Vec<String> =
        graph.steps.iter().map(|&(from, symbol, to)| format!("{} -{symbol}- {}", named(from), named(to))).collect();
    table.sort();
    assert_eq!(table, ["B1 D1 -0- QB D2", "QA C1 -1- QC B1", "QA C1 -1- QC D1", "QB D2 -1- QD B1", "QB D2 -1- QD D1"]);
    assert_eq!(graph.longest_path(), Some(FIGURE_3_LONGEST_PATH));
    assert_eq!(by_prefixes(&code, &[], 1_000), Some(Verdict::Delay(FIGURE_3_LONGEST_PATH + 1)));
}
