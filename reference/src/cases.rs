//! Codes, messages and sheets of the scope paper's cases, of codes with start
//! marks, of codes with ban lists, messages with their next words, figures 2 and
//! 3 of Gönenç, class sheets, and the words that he splits, for the tests of both
//! packages.

use crate::bans::{self, Ban};
use crate::classes::{self, Record, RESERVED};
use crate::code::{Code, Refusal};
use crate::sheet;
use crate::verdict::Verdict;

/// Code T: no bans.
pub fn code_t() -> Code {
    Code::free(&["0", "10", "01", "101"])
}

/// Code U: the words of code T, with bans.
pub fn code_u() -> Code {
    Code::of(&["0", "10", "01", "101"], &["1100", "1111", "1100", "1111"])
}

/// Case 11: six Turkish types.
pub fn turkish_six() -> Code {
    let words = ["0", "10", "01", "101", "011", "1011"];
    Code::of(&words, &["110000", "111111", "110000", "111111", "110000", "111111"])
}

/// Case 12: twelve Turkish types.
pub fn turkish_twelve() -> Code {
    let words = ["0", "10", "01", "101", "011", "1011", "110", "1101", "1110", "11101", "11011", "10111"];
    let vowel_first = "110000101000";
    let any = "111111111111";
    let cluster_first = "001111010111";
    let rows = [
        vowel_first,
        any,
        vowel_first,
        any,
        vowel_first,
        any,
        cluster_first,
        cluster_first,
        cluster_first,
        cluster_first,
        cluster_first,
        any,
    ];
    Code::of(&words, &rows)
}

/// The six types with each consonant either r, symbol 2, or another, symbol 1.
/// They follow each other as the types do.
pub fn turkish_six_with_r() -> Code {
    let six = turkish_six();
    let (mut words, mut types) = (Vec::new(), Vec::new());
    for (number, word) in six.words.iter().enumerate() {
        let with_r = with_r(word);
        types.extend(vec![number; with_r.len()]);
        words.extend(with_r);
    }
    let row = |&x: &usize| types.iter().map(|&y| six.may_follow(x, y)).collect();
    Code::new(words, types.iter().map(row).collect())
}

/// The word with every choice of r among its consonants.
fn with_r(word: &[u8]) -> Vec<Vec<u8>> {
    let mut words = vec![Vec::new()];
    for &symbol in word {
        let symbols: &[u8] = if symbol == 1 { &[1, 2] } else { &[0] };
        let longer = |word: &Vec<u8>| symbols.iter().map(|&next| [&word[..], &[next]].concat()).collect::<Vec<_>>();
        words = words.iter().flat_map(longer).collect();
    }
    words
}

/// Case 13: codes that read the empty message.
pub fn codes_for_the_empty_message() -> Vec<Code> {
    let equal_words = Code::of(&["0", "0"], &["00", "00"]);
    vec![code_t(), code_u(), Code::free(&["0"]), equal_words, turkish_six(), turkish_twelve()]
}

/// A sheet of these words with all entries 1.
fn sheet_of(words: &[String]) -> Vec<u8> {
    let row = ",1".repeat(words.len());
    words.iter().map(|word| format!("{word}{row}\r\n")).collect::<String>().into_bytes()
}

/// Case 14: sheets at the limits, and the refusal of each; none for an accepted one.
pub fn limit_sheets() -> Vec<(Vec<u8>, Option<Refusal>)> {
    let words = |count: usize, length: usize| vec!["0".repeat(length); count];
    let longer = [words(31, 4), words(1, 5)].concat();
    vec![
        (sheet_of(&words(32, 1)), None),
        (sheet_of(&words(33, 1)), Some(Refusal::RecordCount)),
        (sheet_of(&words(32, 4)), None),
        (sheet_of(&words(8, 16)), None),
        (sheet_of(&longer), Some(Refusal::CodeLength)),
        (sheet_of(&words(1, 16)), None),
        (sheet_of(&words(1, 17)), Some(Refusal::WordLength)),
        (b"\r\n".to_vec(), Some(Refusal::WordLength)),
        (vec![b'0'; 4096], Some(Refusal::WordLength)),
        (vec![b'0'; 4097], Some(Refusal::SheetLength)),
    ]
}

/// An ambiguous verdict.
pub fn ambiguous(message: &[u8], first: &[u8], second: &[u8]) -> Verdict {
    Verdict::Ambiguous { message: message.to_vec(), first: first.to_vec(), second: second.to_vec() }
}

/// A code with start marks, the name of its stored sheet, and its verdict.
pub struct Opening {
    pub sheet: &'static str,
    pub code: Code,
    pub verdict: Verdict,
}

/// Codes in which openings matter.
pub fn openings() -> Vec<Opening> {
    let opening = |sheet, starts: &str, words: &[&str], rows: &[&str], verdict| {
        let code = Code::of(words, rows).with_starts(starts);
        Opening { sheet, code, verdict }
    };
    let all = "1111";
    vec![
        opening(
            "opening-code-t",
            "1101",
            &["0", "10", "01", "101"],
            &[all; 4],
            ambiguous(&[0, 0, 1, 0], &[0, 0, 1], &[0, 2, 0]),
        ),
        opening("opening-delay", "100", &["2", "0", "01"], &["000", "100", "100"], Verdict::Delay(2)),
        opening(
            "opening-shared",
            "100",
            &["2", "0", "0"],
            &["000", "100", "100"],
            ambiguous(&[2, 0], &[0, 1], &[0, 2]),
        ),
        opening(
            "opening-not-reached",
            "1000",
            &["2", "3", "0", "0"],
            &["0000", "0000", "0100", "0100"],
            Verdict::Delay(0),
        ),
        opening("opening-none-begins", "00", &["0", "01"], &["11", "11"], Verdict::Delay(0)),
        opening("opening-forced", "10", &["0", "1"], &["01", "10"], Verdict::Delay(0)),
        opening("opening-told-apart", "100", &["0", "01", "11"], &["011", "100", "111"], Verdict::Delay(1)),
        opening("opening-equal-words", "10", &["0", "0"], &["11", "11"], ambiguous(&[0, 0], &[0, 0], &[0, 1])),
    ]
}

/// A code with a ban list, the name of its stored sheet and list, and its verdict.
pub struct Banned {
    pub sheet: &'static str,
    pub code: Code,
    pub bans: Vec<Ban>,
    pub verdict: Verdict,
}

/// Codes in which bans look two words back.
pub fn banned() -> Vec<Banned> {
    let banned = |sheet, code: Code, list: &str, verdict| Banned { sheet, code, bans: bans::of(list), verdict };
    let three = || Code::free(&["0", "1", "010"]);
    let slip_3 = || Code::of(&["0", "10", "01"], &["110", "111", "110"]);
    vec![
        banned("bans-none", code_t(), "", ambiguous(&[0, 1, 0], &[0, 1], &[2, 0])),
        banned("bans-decipherable", three(), "0,0,1 2,0,1", Verdict::Delay(3)),
        banned("bans-longer-message", three(), "0,0,1", ambiguous(&[0, 1, 0, 1, 0], &[0, 1, 2], &[2, 1, 0])),
        banned("bans-delay", Code::free(&["0", "01", "11"]), "2,0,2", Verdict::Delay(4)),
        banned(
            "bans-chain",
            Code::free(&["0", "1", "2", "012"]),
            "0,0,1 0,1,2",
            ambiguous(&[0, 1, 2], &[0, 1, 2], &[3]),
        ),
        banned(
            "bans-chain-told-apart",
            Code::of(&["0", "1", "2", "0120"], &["1111", "1111", "1111", "1101"]),
            "0,0,1 0,1,2",
            Verdict::Delay(4),
        ),
        banned("bans-forbidden-anyway", slip_3(), "0,1,2", Verdict::Delay(3)),
        banned("bans-never-adjacent", slip_3(), "1,2,0", Verdict::Delay(3)),
        banned(
            "bans-equal-words",
            Code::of(&["0", "0", "1"], &["111", "110", "111"]).with_starts("001"),
            "1,2,0",
            ambiguous(&[1, 0, 0, 0], &[2, 0, 0, 0], &[2, 0, 0, 1]),
        ),
        banned(
            "bans-order",
            Code::free(&["1", "0", "0", "0"]).with_starts("1000"),
            "0,0,1",
            ambiguous(&[1, 0], &[0, 1], &[0, 2]),
        ),
        banned("bans-shortening", shortening(), "0,1,0 1,1,0 2,1,0 3,1,0", Verdict::Delay(4)),
        banned("bans-32-words", sixteen_symbols(), &round_of_bans(16), Verdict::Delay(1)),
        banned("bans-128-symbols", runs(&[16; 4]), &round_of_bans(4), Verdict::Delay(1)),
        banned(
            "bans-4096-bytes",
            turkish_twelve(),
            &format!("10,0,1 {}", "0,0,1 ".repeat(584)),
            ambiguous(&[0, 1, 1, 1, 0], &[2, 6], &[4, 1]),
        ),
    ]
}

/// CV and CVC with a short or a long vowel: 1 is a consonant, 0 a short vowel, 2 a long one.
pub fn shortening() -> Code {
    Code::free(&["10", "12", "101", "121"])
}

/// Sixteen words of one symbol.
fn sixteen_symbols() -> Code {
    let words: Vec<String> = (0..16).map(|symbol| format!("{symbol:X}")).collect();
    Code::free(&words.iter().map(String::as_str).collect::<Vec<_>>())
}

/// Words that each repeat one symbol so often.
fn runs(lengths: &[usize]) -> Code {
    let words: Vec<String> =
        lengths.iter().enumerate().map(|(symbol, &length)| symbol.to_string().repeat(length)).collect();
    Code::free(&words.iter().map(String::as_str).collect::<Vec<_>>())
}

/// A ban on word 0 after each of the first words and the next of them: as many copies as words.
fn round_of_bans(words: usize) -> String {
    let bans: Vec<String> = (0..words).map(|y| format!("0,{y},{}", (y + 1) % words)).collect();
    bans.join(" ")
}

/// A code with bans, its delay if it has one, and messages with the next word of each or its refusal.
pub struct Lines {
    pub code: Code,
    pub bans: Vec<Ban>,
    pub delay: Option<usize>,
    pub lines: Vec<(Vec<u8>, Result<u8, Refusal>)>,
}

impl Lines {
    /// The messages are told by their digits. The symbols G, H and so on are too high, and a hyphen is the empty message.
    fn of(code: Code, list: &str, delay: Option<usize>, answers: &[(Result<u8, Refusal>, &str)]) -> Lines {
        let symbol = |digit: char| digit.to_digit(36).map(|symbol| symbol as u8);
        let message = |digits: &str| digits.chars().filter_map(symbol).collect();
        let mut lines = Vec::new();
        for (answer, messages) in answers {
            lines.extend(messages.split_whitespace().map(|digits| (message(digits), *answer)));
        }
        Lines { code, bans: bans::of(list), delay, lines }
    }
}

const NO_WORD: Result<u8, Refusal> = Err(Refusal::NoReading);
const HIGH: Result<u8, Refusal> = Err(Refusal::MessageSymbol);
const NO_DELAY: Result<u8, Refusal> = Err(Refusal::NoFiniteDelay);

/// Messages whose next word is told by a few symbols, and codes without a
/// finite delay. Of code U, 1011 has no reading but begins one with 101; 1 has
/// none either and is whole.
pub fn lines() -> Vec<Lines> {
    let code_u_lines = [
        (Ok(0), "0 00 010 0101 0100 0101G 010111"),
        (Ok(1), "10 1010 1010G 10100"),
        (Ok(2), "01 0110 01101 0110H 01102"),
        (Ok(3), "101 1011 10110 1011G 10112"),
        (NO_WORD, "- 1 11 011 111 1111 2 0112 11110G"),
        (HIGH, "G 0G 101G 1H11 G000 111G"),
    ];
    let six_types = [
        (Ok(1), "10 100 1010 10101"),
        (Ok(2), "01 0110 01101"),
        (Ok(3), "101 10110 101101"),
        (Ok(4), "011 01110"),
        (Ok(5), "1011 10111 101110G"),
        (NO_WORD, "- 1 11 0111 1111 11111G"),
        (HIGH, "G 1011G 01G"),
    ];
    let one_more = [(Ok(0), "0 00 000"), (Ok(1), "01 010 012 01G"), (NO_WORD, "- 1 02 10 11"), (HIGH, "G 0G")];
    let unbounded = Code::free(&["0", "01", "11"]);
    vec![
        Lines::of(Code::free(&["0", "1"]), "", Some(1), &[(Ok(0), "0 0G 02"), (Ok(1), "1 11"), (NO_WORD, "- 2 2G")]),
        Lines::of(Code::free(&["0", "01"]), "", Some(2), &one_more),
        Lines::of(code_u(), "", Some(4), &code_u_lines),
        Lines::of(turkish_six(), "", Some(5), &six_types),
        Lines::of(code_t(), "", None, &[(NO_DELAY, "- 0 010 1 2 G 0G")]),
        Lines::of(unbounded, "", None, &[(NO_DELAY, "- 0 01 011 1 2 G 0G")]),
    ]
}

/// The same for codes in which start marks or bans matter. Delay 0 needs no symbol; and the first words of the last code have copies.
pub fn lines_with_marks_and_bans() -> Vec<Lines> {
    let code = |name: &str| openings().into_iter().find(|opening| opening.sheet == name).expect("a stored code").code;
    let three = Code::free(&["0", "1", "010"]);
    let three_lines = [
        (Ok(0), "0 00 01 000 001 011 0112G"),
        (Ok(1), "1 10 11 100 101 110 1111"),
        (Ok(2), "010 0100 010G 0102"),
        (NO_WORD, "- 2 02 012 112G"),
        (HIGH, "G 0G 01G"),
    ];
    let bans_delay = [
        (Ok(0), "0 00 011 0110 01100"),
        (Ok(1), "01 010 0111 01111 0111G"),
        (Ok(2), "11 110 1111 1100 11110"),
        (NO_WORD, "- 1 111 1110 2 0112"),
        (HIGH, "G 011G"),
    ];
    let opening_delay = [(Ok(0), "2 20 201 200 20G"), (NO_WORD, "- 0 01 21 22 3"), (HIGH, "G 2G 0G0")];
    let told_apart = [(Ok(0), "0 00 01 02 0G"), (NO_WORD, "- 1 11 2 1G"), (HIGH, "G G0")];
    let any_symbols = [(Ok(0), "0 1 F G 01 10 HHH"), (NO_WORD, "-")];
    vec![
        Lines::of(Code::free(&["0"]), "", Some(0), &any_symbols),
        Lines::of(code("opening-forced"), "", Some(0), &any_symbols),
        Lines::of(code("opening-none-begins"), "", Some(0), &[(NO_WORD, "- 0 01 G")]),
        Lines::of(code("opening-told-apart"), "", Some(1), &told_apart),
        Lines::of(code("opening-delay"), "", Some(2), &opening_delay),
        Lines::of(code("opening-shared"), "", None, &[(NO_DELAY, "- 2 20 G")]),
        Lines::of(three.clone(), "0,0,1", None, &[(NO_DELAY, "- 0 010 1 G")]),
        Lines::of(three, "0,0,1 2,0,1", Some(3), &three_lines),
        Lines::of(Code::free(&["0", "01", "11"]), "2,0,2", Some(4), &bans_delay),
    ]
}

/// A sheet with a ban list of which one is refused, the name under which both are stored, and the refusal.
pub struct RefusedList {
    pub name: &'static str,
    pub sheet: Vec<u8>,
    pub list: Vec<u8>,
    pub refusal: Refusal,
}

/// Lists for code T and for codes that have no room for the copies.
pub fn refused_lists() -> Vec<RefusedList> {
    let refused = |name, code: Code, list: &str, refusal| RefusedList {
        name,
        sheet: sheet::write(&code),
        list: list.as_bytes().to_vec(),
        refusal,
    };
    let lines = |list: &str| list.split_whitespace().map(|ban| format!("{ban}\r\n")).collect::<String>();
    let too_long = "10,0,1\r\n".repeat(2) + &"0,0,1\r\n".repeat(583);
    let wrong = |name, list| refused(name, code_t(), list, Refusal::BanRecord);
    let many_words = lines(&(round_of_bans(16) + " 0,0,2"));
    let many_symbols = lines(&round_of_bans(4));
    vec![
        refused("bans-refusal-1-too-long", turkish_twelve(), &too_long, Refusal::SheetLength),
        wrong("bans-refusal-16-byte", "0,0,1\r\n0,1;2\r\n"),
        wrong("bans-refusal-16-line-ends", "0,0,1\n0,1,2\n"),
        wrong("bans-refusal-16-blank-line", "0,0,1\r\n\r\n"),
        wrong("bans-refusal-16-unknown-word", "0,0,1\r\n4,1,2\r\n"),
        wrong("bans-refusal-16-leading-zero", "0,0,1\r\n0,01,2\r\n"),
        wrong("bans-refusal-16-y-equals-z", "0,0,1\r\n0,2,2\r\n"),
        wrong("bans-refusal-16-fields", "0,0,1\r\n1,2\r\n"),
        refused("bans-refusal-17-words", sixteen_symbols(), &many_words, Refusal::BanLimit),
        refused("bans-refusal-17-symbols", runs(&[16, 16, 16, 16, 1]), &many_symbols, Refusal::BanLimit),
        refused("bans-refusal-several", sixteen_symbols(), &(many_words.clone() + "0,16,1\r\n"), Refusal::BanRecord),
        RefusedList {
            name: "bans-refusal-sheet-first",
            sheet: b"0,1,1\r\n1,1,2\r\n".to_vec(),
            list: too_long.clone().into_bytes(),
            refusal: Refusal::RowEntry,
        },
    ]
}

/// The Turkish letters as records of a class sheet, by the code table of ISO 8859-9: capitals, small letters, those outside ASCII.
pub const TURKISH_CLASSES: &str = "\
    41,41,0 42,44,1 45,45,0 46,48,1 49,49,0 4A,4E,1 4F,4F,0 50,50,1 52,54,1 55,55,0 56,56,1 59,5A,1 \
    61,61,0 62,64,1 65,65,0 66,68,1 69,69,0 6A,6E,1 6F,6F,0 70,70,1 72,74,1 75,75,0 76,76,1 79,7A,1 \
    C7,C7,1 D0,D0,1 D6,D6,0 DC,DD,0 DE,DE,1 E7,E7,1 F0,F0,1 F6,F6,0 FC,FD,0 FE,FE,1";

/// The largest class sheet that is accepted: a record for each byte that may be a letter.
pub fn largest_class_sheet() -> Vec<u8> {
    let letters = (0..=255).filter(|byte| !RESERVED.contains(byte));
    let record = |byte: u8| Record { lowest: byte, highest: byte, symbol: byte % 16 };
    classes::write(&letters.map(record).collect::<Vec<_>>())
}

/// Class sheets, and the refusal of each; none for an accepted one. In the lists a slash stands for a line end.
pub fn class_sheets() -> Vec<(Vec<u8>, Option<Refusal>)> {
    let accepted = "61,61,0 00,00,F 00,27,A/2A,5A,1/5C,5C,2/5E,B6,3/B8,FF,4 61,61,0/62,62,0 66,7A,1/61,64,1/65,65,0";
    // Other bytes; records that are not three fields of two, two and one digit, of which a blank line is one.
    let malformed =
        "6a,6a,0 61,61,a G1,61,0 61,61,G 61;61;0 \"61\",61,0 61,61,0\0 \u{feff}61,61,0 low,high,symbol/61,61,0 \
        / // 61,61,0// /61,61,0 61,61,0//62,62,0 61 61,61 6161,0 61,61,0,0 61,61,0, ,61,61,0 ,, ,61,0 61,,0 61,61, \
        1,61,0 061,61,0 61,1,0 61,061,0 61,61,00 0,0,61";
    let line_ends =
        ["61,61,0\n", "61,61,0\r", "61,61,0\r\r\n", "\n61,61,0", "61,61,0\n\r", "61,\t61,0", "61, 61,0", " "];
    // Bytes that are never letters: alone, at either end, inside a range, among other records.
    let reserved = "28,28,0 29,29,0 5B,5B,0 5D,5D,0 B7,B7,0 27,28,0 28,29,0 29,2A,0 5A,5B,0 5B,5C,0 5C,5D,0 5D,5E,0 \
        B6,B7,0 B7,B8,0 5A,5C,0 5C,5E,0 B6,B8,0 27,2A,0 00,FF,0 61,61,0/B0,BF,1/62,62,1";
    // Refusals 19 and 20 beside 18.
    let several = "62,61,0/28,28,0 61,61,0/61,61,0/61,61 62,61,0/61,61,0/61,61,0/00,FF,0 62,61,00";
    // Such a record takes in no byte, so no byte that is never a letter. In the last ones 20 holds beside 19.
    let upside_down = "62,61,0 FF,00,0 B8,B6,0 B7,B6,0 B8,B7,0 29,28,0 5D,5B,0 B7,28,0 \
        62,61,0/63,63,0/63,63,0 63,63,0/63,63,0/62,61,0 62,61,0/62,61,0 61,7A,1/65,61,0";
    let twice = "61,61,0/61,61,0 61,61,0/61,61,1 61,65,0/65,70,1 65,70,1/61,65,0 61,7A,1/65,65,0 65,65,0/61,7A,1 \
        00,00,0/FF,FF,0/00,00,0 41,5A,0/61,61,0/5E,B6,1";
    let (size, wrong) = (Some(Refusal::SheetLength), Some(Refusal::ClassRecord));
    let (range, overlap) = (Some(Refusal::ClassRange), Some(Refusal::ClassOverlap));
    let lists = [
        (accepted, None),
        (malformed, wrong),
        (reserved, wrong),
        (several, wrong),
        (upside_down, range),
        (twice, overlap),
    ];
    let mut sheets = vec![(TURKISH_CLASSES.replace(' ', "\r\n").into_bytes(), None)];
    for (list, refusal) in lists {
        sheets.extend(list.split_whitespace().map(|sheet| (sheet.replace('/', "\r\n").into_bytes(), refusal)));
    }
    sheets.extend(line_ends.map(|sheet| (sheet.as_bytes().to_vec(), wrong)));
    // A line end after the last record is optional.
    let ended: Vec<_> = sheets.iter().map(|(sheet, refusal)| ([sheet, &b"\r\n"[..]].concat(), *refusal)).collect();
    sheets.extend(ended);
    let many = |record: &str, count: usize| format!("{record}\r\n").repeat(count).into_bytes();
    sheets.extend([
        (Vec::new(), size),
        (largest_class_sheet(), None),
        (vec![b'0'; 4_096], wrong),
        (vec![b'0'; 4_097], size),
        (many("61,61,0", 455), overlap),
        (many("62,61,0", 455), range),
        (many("28,28,0", 455), wrong),
        (many("61,61,0", 456), size),
        ([many("61,61,0", 455), b"0".to_vec()].concat(), wrong),
        ([many("61,61,0", 455), b"00".to_vec()].concat(), size),
    ]);
    sheets
}

/// Figure 2: ambiguous messages of code T, each with its two readings.
pub fn figure_2() -> [(&'static [u8], [u8; 2], [u8; 2]); 4] {
    let (a, b, c, d) = (0, 1, 2, 3);
    [
        (&[0, 1, 0], [a, b], [c, a]),
        (&[0, 1, 0, 1], [a, d], [c, c]),
        (&[1, 0, 1, 0], [b, b], [d, a]),
        (&[1, 0, 1, 0, 1], [b, d], [d, c]),
    ]
}

/// Figure 3: steps of the longest path of code U, the step to a first pair included.
pub const FIGURE_3_LONGEST_PATH: usize = 3;

/// Words of Gönenç's table 1, section 5 and figure 5 that the twelve types read
/// in one way, with a dot between the syllables.
pub const SPLIT_WORDS: &str = "\
    a·çık ba·ba ek·mek al·tın erk türk kra·li·çe stra·te·ji stron·si·yum \
    HE·CE A·YIR·MA PROG·RA·MI GE·LE·NEK A·KAR·YA·KIT UY·GU·LA·MA TOR·TU KOR·KAK TAN·JANT STE·RE·OS·KOP AH·MET RI·ZA O \
    A·NI IS·FENKS KAN·DIR·MA·CA MA·YIS GU·SUL·HA·NE SA·AT TA·TAR AM·FI·TE·ATR TE·LEKS KRE·O·ZOT FLA·MA FLU·OR \
    A·E·RO·DI·NA·MIK A·IT A·RAP A·ORT A·VURT AR·KE·O·LOG BA·BA TRA·HOM FRE·KANS STRA·TE·JI STRA·TOS·FER AR·TI";

/// Words that he splits as here, telling r from the other consonants; the twelve types read them in several ways.
pub const AMBIGUOUS_WORDS: &str = "\
    kon·trol trenç·kot kontr·bas \
    em·pri·me is·pri·tiz·ma ens·ti·tü esk·ka·va·tör kon·gre kom·pra·dor fark·lı kürk·çü is·tran·ca ak·tris eks·per \
    kan·gren kon·trat tabl·dot teks·til \
    KON·GRE KAN·GREN TABL·DOT KON·TRAT EM·PRI·ME ENS·TI·TU EKS·PER IS·TRAN·CA IS·TRON·GI·LOS KON·TRAST EKS·KA·VA·TOR";

/// Words that he prints in brackets: no types make them.
pub const UNREAD_WORDS: &str = "STRC BB FBRKET";
