//! Refusals 1 to 7 and 15 on sheets, the lowest first, 1, 8, 16 and 17 on ban
//! lists, and 9 to 14 on sequences and messages.

use reference::bans;
use reference::code::{Code, Refusal};
use reference::copies::enlarge;
use reference::encode::encode;
use reference::operations::{Operations, Reference};
use reference::print::result;
use reference::read::read;
use reference::sheet::take_in;
use reference::table::Table;

fn refused(sheet: &str) -> u8 {
    take_in(sheet.as_bytes()).err().map_or(0, Refusal::number)
}

#[test]
fn line_ends() {
    assert_eq!(refused("0,1\r\n"), 0);
    assert_eq!(refused("0,1"), 0);
    assert_eq!(refused("0,1\n"), 2);
    assert_eq!(refused("0,1\r"), 2);
    assert_eq!(refused("0,1\r\r\n"), 2);
    assert_eq!(refused("\n\r"), 2);
    assert_eq!(refused("\n0,1\r\n"), 2);
    assert_eq!(refused("0,1,1\r\n1,1,1"), 0);
    assert_eq!(refused("0,1,1\r\n1,1,1\r\n"), 0);
}

#[test]
fn a_blank_line_is_a_record() {
    assert_eq!(refused("\r\n"), 4);
    assert_eq!(refused("\r\n\r\n"), 4);
    assert_eq!(refused("0,1\r\n\r\n"), 4);
    assert_eq!(refused("\r\n0,1"), 4);
}

#[test]
fn bytes() {
    for sheet in ["a,1", "G,1", "0;1", "0, 1", "\"0\",1", "\u{feff}0,1", "0,1\0"] {
        assert_eq!(refused(sheet), 2, "{sheet:?}");
    }
    assert_eq!(refused("0123456789ABCDEF,1"), 0);
}

#[test]
fn fields_and_entries() {
    assert_eq!(refused("0"), 6);
    assert_eq!(refused("0,1,1,1"), 6);
    assert_eq!(refused("0,1,1\r\n1,1"), 6);
    assert_eq!(refused("0,2"), 7);
    assert_eq!(refused("0,A"), 7);
    assert_eq!(refused("0,"), 7);
    assert_eq!(refused("0,01"), 7);
    assert_eq!(refused("0,1,1\r\n1,1,"), 7);
}

#[test]
fn start_fields() {
    for sheet in ["0,0,1", "0,1,1", "0,0,0\r\n", "0,1,1,1\r\n1,0,1,1\r\n"] {
        assert_eq!(refused(sheet), 0, "{sheet:?}");
    }
    for field in ["", "2", "F", "00", "01", "10", "11"] {
        assert_eq!(refused(&format!("0,{field},1")), 15, "{field:?}");
        assert_eq!(refused(&format!("0,1,1,1\r\n1,{field},1,1")), 15, "{field:?}");
    }
    // Without start fields the second field is a row entry.
    assert_eq!(refused("0,2"), 7);
    assert_eq!(refused("0,2,1\r\n1,1,1"), 7);
}

#[test]
fn every_record_has_the_same_fields() {
    assert_eq!(refused("0,1,1,1\r\n1,1,1"), 6);
    assert_eq!(refused("0,1,1\r\n1,1,1,1"), 6);
    assert_eq!(refused("0,1,1,1,1\r\n1,1,1,1,1"), 6);
    assert_eq!(refused("0,1,1,1,1\r\n1,1,1,1"), 6);
    assert_eq!(refused("0,1\r\n1,1"), 6);
}

/// A start field 2 beside each of the other refusals of a sheet.
#[test]
fn a_start_field_is_tested_last() {
    let long_word = "0".repeat(17);
    let full_word = "0".repeat(16);
    let row = ",1".repeat(9);
    let many = format!("{}0,2{row}", format!("{full_word},2{row}\r\n").repeat(8));
    assert_eq!(refused(&format!("0,2,1\r\n{}", "0".repeat(4_096))), 1);
    assert_eq!(refused("0,2,1\n"), 2);
    assert_eq!(refused(&format!("0,2{}\r\n", ",1".repeat(33)).repeat(33)), 3);
    assert_eq!(refused(&format!("{long_word},2,1")), 4);
    assert_eq!(refused(&many), 5);
    assert_eq!(refused(&many[1..]), 15);
    assert_eq!(refused("0,2,1,1\r\n1,1,1"), 6);
    assert_eq!(refused("0,2,2"), 7);
    assert_eq!(refused("0,2,1,1\r\n1,1,1,"), 7);
    assert_eq!(refused("0,1,1,2\r\n1,2,1,1"), 7);
}

#[test]
fn the_lowest_is_returned() {
    let long_word = "0".repeat(17);
    assert_eq!(refused(&"x".repeat(4097)), 1);
    assert_eq!(refused(&format!("{}x", "\r\n".repeat(40))), 2);
    assert_eq!(refused(&"\r\n".repeat(33)), 3);
    assert_eq!(refused(&"\r\n".repeat(32)), 4);
    assert_eq!(refused(&format!("0,7,7,7\r\n{long_word},7")), 4);
    assert_eq!(refused(&format!("{}0,7", format!("{},7\r\n", "0".repeat(16)).repeat(8))), 5);
    assert_eq!(refused("0,7,1\r\n1,1"), 6);
}

/// The refusal of a ban list for twelve words, 0 if it is accepted.
fn list_refused(list: &str) -> u8 {
    bans::take_in(list.as_bytes(), 12).err().map_or(0, Refusal::number)
}

#[test]
fn line_ends_of_a_ban_list() {
    for list in ["", "0,0,1", "0,0,1\r\n", "0,0,1\r\n0,0,1", "0,0,1\r\n0,0,1\r\n"] {
        assert_eq!(list_refused(list), 0, "{list:?}");
    }
    for list in ["0,0,1\n", "0,0,1\r", "0,0,1\r\r\n", "\n0,0,1", "\r\n", "\r\n\r\n", "\r\n0,0,1", "0,0,1\r\n\r\n"] {
        assert_eq!(list_refused(list), 16, "{list:?}");
    }
}

#[test]
fn bytes_of_a_ban_list() {
    for list in ["0;0;1", "0, 0,1", "\"0\",0,1", "\u{feff}0,0,1", "0,0,1\0", "A,0,1", "-0,0,1", "+0,0,1", "0,0,1.0"] {
        assert_eq!(list_refused(list), 16, "{list:?}");
    }
}

#[test]
fn records_of_a_ban_list() {
    for list in ["0,10,11", "11,10,9", "0,0,1", "1,0,1", "5,0,1"] {
        assert_eq!(list_refused(list), 0, "{list:?}");
    }
    for list in ["0", "0,1", "0,1,2,3", ",0,1", "0,,1", "0,1,", ",,", "0,0,1,"] {
        assert_eq!(list_refused(list), 16, "{list:?}");
    }
    for list in ["12,0,1", "0,12,1", "0,1,12", "00,0,1", "0,01,2", "0,1,02", "0,0,010", "256,0,1", "4294967296,0,1"] {
        assert_eq!(list_refused(list), 16, "{list:?}");
    }
    assert_eq!(list_refused(&format!("{},0,1", "1".repeat(4_000))), 16);
    assert_eq!(list_refused("3,4,4"), 16);
    assert_eq!(list_refused("0,0,1\r\n11,11,11"), 16);
}

#[test]
fn length_of_a_ban_list() {
    let longest = "10,0,1\r\n".to_string() + &"0,0,1\r\n".repeat(584);
    assert_eq!(longest.len(), 4_096);
    assert_eq!(list_refused(&longest), 0);
    assert_eq!(list_refused(&"x".repeat(4_096)), 16);
    assert_eq!(list_refused(&"x".repeat(4_097)), 1);
}

/// 1, 8, 16 and 17 where several hold.
#[test]
fn the_lowest_of_a_ban_list_is_returned() {
    let code = Code::free(&["0"; 31]);
    let (table, unsound) = (Table::of(&code), Table { count: 0, ..Table::of(&code) });
    let fits = Table::of(&enlarge(&code, &bans::of("0,0,1")).unwrap());
    let too_long = "x".repeat(4_097);
    let cases = [
        (&table, "", 0),
        (&table, "0,0,1\r\n1,0,1", 0),
        (&table, "0,0,1\r\n0,1,0", 17),
        (&table, "0,0,1\r\n0,1,0\r\n0,1,1", 16),
        (&unsound, "", 8),
        (&unsound, "0,0,1\r\n0,1,0", 8),
        (&unsound, "x", 8),
        (&unsound, &too_long, 1),
        // A code that has copies already, also for a list without a ban.
        (&fits, "", 8),
        (&fits, "0,0,1", 8),
        (&fits, &too_long, 1),
    ];
    for (table, list, number) in cases {
        let (refusal, enlarged) = Reference.enlarge(table, list.as_bytes());
        assert_eq!(refusal.map_or(0, Refusal::number), number, "{list:?}");
        assert_eq!(enlarged == Table::BLANK, number > 0, "{list:?}");
    }
}

#[test]
fn without_a_ban_the_table_stays() {
    let table = Table::of(&Code::free(&["0", "01"]));
    assert_eq!(Reference.enlarge(&table, b""), (None, table));
}

#[test]
fn refusals_are_printed() {
    assert_eq!(result(b"", b""), b"refused,1\r\n");
    assert_eq!(result(b"0,2", b""), b"refused,7\r\n");
    assert_eq!(result(b"0,2,1", b""), b"refused,15\r\n");
    assert_eq!(result(b"0,1", b"0,0,1"), b"refused,16\r\n");
    assert_eq!(result(b"0,2", b"0,0,1"), b"refused,7\r\n");
    assert_eq!(result(b"0,2,1", b"x"), b"refused,15\r\n");
}

#[test]
fn sequences() {
    let code = Code::of(&["0", "1111111111111111"], &["11", "01"]);
    assert_eq!(encode(&code, &[]), Ok(vec![]));
    assert_eq!(encode(&code, &[0, 1, 2]), Err(Refusal::UnknownWord));
    assert_eq!(encode(&code, &[0, 1]), Err(Refusal::ForbiddenPair));
    assert_eq!(encode(&code, &[1, 0]).map(|message| message.len()), Ok(17));
    assert_eq!(encode(&code, &[1; 1024]), Ok(vec![1; 16_384]));
    assert_eq!(encode(&code, &[1; 1025]), Err(Refusal::MessageLength));
    let long_and_banned = [vec![1; 1025], vec![0, 1]].concat();
    assert_eq!(encode(&code, &long_and_banned), Err(Refusal::ForbiddenPair));
}

#[test]
fn messages() {
    let code = Code::free(&["0", "11"]);
    assert!(read(&code, &[1; 16_384]).is_ok());
    assert_eq!(read(&code, &[1; 16_383]), Err(Refusal::NoReading));
    assert_eq!(read(&code, &[16; 16_385]), Err(Refusal::MessageLength));
    assert_eq!(read(&code, &[1, 16]), Err(Refusal::MessageSymbol));
    assert_eq!(read(&code, &[1]), Err(Refusal::NoReading));
    assert_eq!(read(&code, &[15]), Err(Refusal::NoReading));
}
