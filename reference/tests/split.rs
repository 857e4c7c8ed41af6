//! Texts split into syllables: the words that Gönenç prints, every byte, other
//! classes than those of Turkish, and agreement with brute force.

use reference::bans::{self, Ban};
use reference::brute::readings;
use reference::cases::{
    banned, turkish_six, turkish_six_with_r, AMBIGUOUS_WORDS, SPLIT_WORDS, TURKISH_CLASSES, UNREAD_WORDS,
};
use reference::classes::{self, Classes, Entries, OTHER, RESERVED};
use reference::code::{Code, Refusal};
use reference::copies::{enlarge, without_copies};
use reference::generate;
use reference::letters::{bytes, capital, with_r_apart, CONSONANTS, TURKISH, VOWELS};
use reference::operations::{Buffers, Operations, Reference};
use reference::print;
use reference::random::Random;
use reference::sheet::write;
use reference::split::{split, words, Kind, Word, DOT, MAX_TEXT_BYTES};
use reference::table::Table;
use reference::turkish;

/// The letters that the papers list, small and capital, by their bytes.
const VOWEL_BYTES: &[u8] = b"aeiouAEIOU\xFD\xF6\xFC\xDD\xD6\xDC";
const CONSONANT_BYTES: &[u8] = b"bcdfghjklmnprstvyzBCDFGHJKLMNPRSTVYZ\xE7\xC7\xF0\xD0\xFE\xDE";

fn symbol(byte: u8) -> Option<u8> {
    let symbols = [(0, VOWEL_BYTES), (1, CONSONANT_BYTES)];
    symbols.into_iter().find(|(_, letters)| letters.contains(&byte)).map(|(symbol, _)| symbol)
}

/// The text that a code makes of this one.
fn made(code: &Code, text: &str) -> Vec<u8> {
    split(code, &TURKISH, &bytes(text)).unwrap()
}

#[test]
fn every_byte_has_its_class() {
    for byte in 0..=255 {
        assert_eq!(TURKISH.symbol(byte), symbol(byte), "{byte:02X}");
    }
    assert_eq!((VOWEL_BYTES.len(), CONSONANT_BYTES.len()), (2 * 8, 2 * 21));
    assert_eq!((VOWELS.chars().count(), CONSONANTS.chars().count()), (8, 21));
    let classes: &Classes = &TURKISH;
    assert_eq!(classes.bytes(None).len(), 256 - 2 * 29);
}

#[test]
fn capitals_are_read_as_small_letters() {
    for letter in VOWELS.chars().chain(CONSONANTS.chars()) {
        let [small, large] = [letter, capital(letter)].map(|letter| bytes(&letter.to_string())[0]);
        assert_ne!(small, large);
        assert_eq!(TURKISH.symbol(small), TURKISH.symbol(large), "{letter}");
    }
    assert_eq!(bytes("ıIiİğĞşŞçÇöÖüÜ"), b"\xFDI\x69\xDD\xF0\xD0\xFE\xDE\xE7\xC7\xF6\xD6\xFC\xDC");
}

/// The lengths of the syllables of a word that is written with dots.
fn lengths(word: &str) -> Vec<usize> {
    word.split('·').map(|syllable| syllable.chars().count()).collect()
}

/// The readings of a word by brute force, as lengths of syllables.
fn by_brute_force(code: &Code, word: &str) -> Vec<Vec<usize>> {
    let message: Vec<u8> = bytes(&word.replace('·', "")).into_iter().filter_map(symbol).collect();
    let lengths = |reading: &Vec<u8>| reading.iter().map(|&word| code.words[word as usize].len()).collect();
    readings(code, &[], &message).iter().map(lengths).collect()
}

#[test]
fn printed_words() {
    let code = turkish::code();
    for word in SPLIT_WORDS.split_whitespace() {
        assert_eq!(made(&code, &word.replace('·', "")), bytes(word), "{word}");
        assert_eq!(by_brute_force(&code, word), [lengths(word)], "{word}");
    }
    for word in AMBIGUOUS_WORDS.split_whitespace() {
        let letters = word.replace('·', "");
        assert_eq!(made(&code, &letters), bytes(&format!("[{letters}]")), "{word}");
        let readings = by_brute_force(&code, word);
        assert!(readings.len() > 1 && readings.contains(&lengths(word)), "{word}: {readings:?}");
    }
    for word in UNREAD_WORDS.split_whitespace() {
        assert_eq!(made(&code, word), bytes(&format!("({word})")), "{word}");
        assert!(by_brute_force(&code, word).is_empty(), "{word}");
    }
}

/// The six types of native Turkish have no ambiguous message. The words that need more types have no reading.
#[test]
fn printed_words_by_six_types() {
    let code = turkish_six();
    for word in [SPLIT_WORDS, AMBIGUOUS_WORDS, UNREAD_WORDS].join(" ").split_whitespace() {
        let letters = word.replace('·', "");
        let expected = match &by_brute_force(&code, word)[..] {
            [] => format!("({letters})"),
            [reading] => {
                assert!(reading == &lengths(word) || AMBIGUOUS_WORDS.contains(word), "{word}");
                dotted(&letters, reading)
            }
            several => panic!("{word}: {several:?}"),
        };
        assert_eq!(made(&code, &letters), bytes(&expected), "{word}");
    }
    assert_eq!(made(&code, "kraliçe baba kongre farklı"), bytes("(kraliçe) ba·ba kong·re fark·lı"));
}

/// The letters with a dot between syllables of these lengths.
fn dotted(letters: &str, lengths: &[usize]) -> String {
    let mut letters = letters.chars();
    let syllables: Vec<String> = lengths.iter().map(|&length| letters.by_ref().take(length).collect()).collect();
    syllables.join("·")
}

/// Lines of figure 5. He leaves numerals and signs out, and here they stay.
#[test]
fn printed_lines() {
    let code = turkish::code();
    let lines = [
        ("HECE AYIRMA PROGRAMI", "HE·CE A·YIR·MA PROG·RA·MI"),
        ("STEREOSKOP AHMET RIZA O STRC BB ANI", "STE·RE·OS·KOP AH·MET RI·ZA O (STRC) (BB) A·NI"),
        ("FBRKET (KANDIRMACA) 12/MAYIS/1971 GUSULHANE", "(FBRKET) (KAN·DIR·MA·CA) 12/MA·YIS/1971 GU·SUL·HA·NE"),
        ("EMPRIME, ENSTITU\r\n", "[EMPRIME], [ENSTITU]\r\n"),
    ];
    for (line, expected) in lines {
        assert_eq!(made(&code, line), bytes(expected), "{line}");
    }
}

/// All bytes in order, in the reverse order, and each by itself.
#[test]
fn every_byte_in_a_text() {
    let code = turkish::code();
    let ascending: Vec<u8> = (0..=255).collect();
    let descending: Vec<u8> = ascending.iter().rev().copied().collect();
    for text in [&ascending, &descending] {
        assert_eq!(split(&code, &TURKISH, text).unwrap(), by_hand(&code, &[], text));
    }
    for byte in 0..=255 {
        let expected = match symbol(byte) {
            Some(1) => vec![b'(', byte, b')'],
            _ => vec![byte],
        };
        assert_eq!(split(&code, &TURKISH, &[byte]).unwrap(), expected, "{byte:02X}");
    }
}

/// Bytes that the output also uses mean nothing in a text, and part words.
#[test]
fn dots_and_brackets_in_a_text() {
    let code = turkish::code();
    for (text, expected) in [
        ("", ""),
        ("·", "·"),
        ("ba·ba", "ba·ba"),
        ("bab·a", "bab·a"),
        ("b·aba", "(b)·a·ba"),
        ("()[]··", "()[]··"),
        ("(baba)", "(ba·ba)"),
        ("[kongre]", "[[kongre]]"),
        ("(b)", "((b))"),
        ("kon)gre(", "kon)gre("),
        ("baba1baba", "ba·ba1ba·ba"),
        ("baba'nın", "ba·ba'nın"),
        // Neither x nor a vowel with a circumflex is among the letters.
        ("taxi", "taxi"),
        ("âdeta", "âde·ta"),
    ] {
        assert_eq!(made(&code, text), bytes(expected), "{text}");
    }
}

/// A text of one-letter words has the longest output: twice the text and one byte.
#[test]
fn the_longest_output() {
    let code = turkish::code();
    for text in ["b", "b b", "b b b"] {
        assert_eq!(made(&code, text).len(), 2 * text.len() + 1);
    }
    let longest = b"b ".repeat(MAX_TEXT_BYTES / 2);
    assert_eq!(split(&code, &TURKISH, &longest[..MAX_TEXT_BYTES - 1]).unwrap().len(), 2 * MAX_TEXT_BYTES - 1);
}

/// Where words stand and how they are read.
#[test]
fn records_of_words() {
    let text = bytes(" kraliçe,kongre\r\nbb o");
    let word = |place, kind| Word { place, kind };
    let expected = [
        word(1..8, Kind::Split(vec![3, 2, 2])),
        word(9..15, Kind::Several),
        word(17..19, Kind::None),
        word(20..21, Kind::Split(vec![1])),
    ];
    assert_eq!(words(&turkish::code(), &TURKISH, &text), expected);
}

/// What splitting is by its definition: words by the lists of letters above, readings by brute force.
fn by_hand(code: &Code, bans: &[Ban], text: &[u8]) -> Vec<u8> {
    by_symbols(code, bans, symbol, text)
}

/// The same with letters of any kind.
fn by_symbols(code: &Code, bans: &[Ban], symbol: impl Fn(u8) -> Option<u8>, text: &[u8]) -> Vec<u8> {
    let mut output = Vec::new();
    let mut at = 0;
    while at < text.len() {
        let letters: Vec<u8> = text[at..].iter().copied().take_while(|&byte| symbol(byte).is_some()).collect();
        if letters.is_empty() {
            output.push(text[at]);
            at += 1;
            continue;
        }
        at += letters.len();
        let message: Vec<u8> = letters.iter().filter_map(|&byte| symbol(byte)).collect();
        match &readings(code, bans, &message)[..] {
            [] => output.extend([b"(", &letters[..], b")"].concat()),
            [reading] => {
                let mut ends = reading.iter().scan(0, |end, &word| {
                    *end += code.words[word as usize].len();
                    Some(*end)
                });
                let mut end = ends.next();
                for (read, letter) in letters.iter().enumerate() {
                    if end == Some(read) {
                        output.push(DOT);
                        end = ends.next();
                    }
                    output.push(*letter);
                }
            }
            _ => output.extend([b"[", &letters[..], b"]"].concat()),
        }
    }
    output
}

/// A small code, mostly over vowels and consonants alone. One in so many entries and start marks is 0.
fn small_code(random: &mut Random, one_in: usize) -> Code {
    let kinds = *random.pick(&[2, 2, 2, 3]);
    let word = |random: &mut Random| (0..random.between(1, 3)).map(|_| random.below(kinds) as u8).collect();
    let words: Vec<Vec<u8>> = (0..random.between(1, 5)).map(|_| word(random)).collect();
    let bits = |random: &mut Random| words.iter().map(|_| !random.one_in(one_in)).collect::<Vec<bool>>();
    let rows = words.iter().map(|_| bits(random)).collect();
    let starts = bits(random);
    Code { starts, ..Code::new(words, rows) }
}

/// A text of short words, as many vowels as consonants, and one other byte after each.
fn short_text(random: &mut Random) -> Vec<u8> {
    let mut text: Vec<u8> = Vec::new();
    while text.len() < 20 {
        for _ in 0..random.below(7) {
            let letters = *random.pick(&[VOWEL_BYTES, CONSONANT_BYTES]);
            text.push(*random.pick(letters));
        }
        text.push(*random.pick(b" \xB7()[]\r\n1qWx\xE2\xFF\x00"));
    }
    text
}

#[test]
fn texts_agree_with_brute_force() {
    let mut random = Random(1);
    let mut met = [0; 3];
    for _ in 0..2_000 {
        let (code, text) = (small_code(&mut random, 4), short_text(&mut random));
        let output = split(&code, &TURKISH, &text).unwrap();
        assert_eq!(output, by_hand(&code, &[], &text), "{code:?} {text:?}");
        count(&mut met, &code, &TURKISH, &text);
    }
    println!("{} words split, {} without reading, {} with several", met[0], met[1], met[2]);
    assert!(met.iter().all(|&times| times > 500), "{met:?}");
}

/// Of a code with copies the readings are those of the words that obey the bans.
#[test]
fn texts_agree_with_brute_force_under_bans() {
    let mut random = Random(2);
    let (mut met, mut changed) = ([0; 3], 0);
    for _ in 0..6_000 {
        let code = small_code(&mut random, 12);
        let bans = generate::bans(&mut random, &code);
        let (Ok(enlarged), text) = (enlarge(&code, &bans), short_text(&mut random)) else { continue };
        let output = split(&enlarged, &TURKISH, &text).unwrap();
        assert_eq!(output, by_hand(&code, &bans, &text), "{code:?} {bans:?} {text:?}");
        changed += usize::from(output != split(&code, &TURKISH, &text).unwrap());
        count(&mut met, &enlarged, &TURKISH, &text);
    }
    println!("{} words split, {} without reading, {} with several; bans change {changed}", met[0], met[1], met[2]);
    assert!(met.iter().all(|&times| times > 500) && changed > 200, "{met:?} {changed}");
}

fn count(met: &mut [usize; 3], code: &Code, classes: &Classes, text: &[u8]) {
    for word in words(code, classes, text) {
        met[match word.kind {
            Kind::Split(_) => 0,
            Kind::None => 1,
            Kind::Several => 2,
        }] += 1;
    }
}

/// By the classes of generated sheets.
#[test]
fn texts_agree_with_brute_force_by_other_classes() {
    let mut random = Random(5);
    let mut met = [0; 3];
    for _ in 0..4_000 {
        let sheet = generate::class_sheet(&mut random);
        let classes = classes::take_in(&sheet).unwrap();
        let code = small_code(&mut random, 8);
        // Short words that the code may have, and bytes of any kind.
        let mut text = Vec::new();
        while text.len() < 20 {
            let message: Vec<u8> = (0..random.below(7)).map(|_| random.below(3) as u8).collect();
            text.extend(generate::spelled(&mut random, &classes, &message));
            text.push(if random.one_in(2) { random.below(256) as u8 } else { *random.pick(&RESERVED) });
        }
        let symbol = |byte: u8| symbol_in(&sheet, byte);
        // Brute force is for short words.
        if text.split(|&byte| symbol(byte).is_none()).any(|word| word.len() > 8) {
            continue;
        }
        let output = split(&code, &classes, &text).unwrap();
        assert_eq!(output, by_symbols(&code, &[], symbol, &text), "{code:?} {text:?}");
        count(&mut met, &code, &classes, &text);
    }
    println!("{} words split, {} without reading, {} with several", met[0], met[1], met[2]);
    assert!(met.iter().all(|&times| times > 500), "{met:?}");
}

/// The symbol that an accepted class sheet gives a byte: that of the record that takes it in.
fn symbol_in(sheet: &[u8], byte: u8) -> Option<u8> {
    let number = |field: &str| u8::from_str_radix(field, 16).unwrap();
    std::str::from_utf8(sheet).unwrap().lines().find_map(|line| {
        let fields: Vec<u8> = line.split(',').map(number).collect();
        (fields[0] <= byte && byte <= fields[1]).then_some(fields[2])
    })
}

/// The sheet of the Turkish letters gives what the built-in letters give.
#[test]
fn the_turkish_sheet_splits_as_the_built_in_letters() {
    let mut random = Random(6);
    let classes = classes::of(TURKISH_CLASSES);
    let sheet = TURKISH_CLASSES.replace(' ', "\r\n").into_bytes();
    for _ in 0..1_000 {
        let code = generate::code(&mut random);
        let text = generate::text(&mut random, &code, &TURKISH);
        assert_eq!(split(&code, &classes, &text), split(&code, &TURKISH, &text));
    }
    let words = bytes(&[SPLIT_WORDS, AMBIGUOUS_WORDS, UNREAD_WORDS].join(" ").replace('·', ""));
    assert_eq!(print::split(None, Some(&sheet), &words), print::split(None, None, &words));
}

/// Where each type has its forms with r, telling r from the other consonants changes nothing. By the types without r a word with r
/// has no reading.
#[test]
fn r_told_apart() {
    let (six, with_r) = (turkish_six(), turkish_six_with_r());
    assert_eq!((with_r.words.len(), with_r.symbols()), (21, 65));
    let mut random = Random(7);
    for _ in 0..1_000 {
        let text = generate::text(&mut random, &six, &TURKISH);
        assert_eq!(split(&with_r, &with_r_apart(), &text), split(&six, &TURKISH, &text));
    }
    let text = bytes("kongre KARA baba");
    assert_eq!(split(&with_r, &with_r_apart(), &text).unwrap(), bytes("kong·re KA·RA ba·ba"));
    assert_eq!(split(&six, &with_r_apart(), &text).unwrap(), bytes("(kongre) (KARA) ba·ba"));
}

/// He reads kongre in two ways by the letters, and in one where r may stand second: CV, CVC, and both with r after the first consonant.
#[test]
fn r_settles_a_word() {
    let code = Code::free(&["10", "101", "120", "1201", "20", "201"]);
    let classes = with_r_apart();
    let made = |text: &str| split(&code, &classes, &bytes(text)).unwrap();
    assert_eq!(made("kongre, kontrol, kara"), bytes("kon·gre, kon·trol, ka·ra"));
    assert_eq!(made("matris; strateji"), bytes("[matris]; (strateji)"));
}

/// Any byte but the five may be a letter, also a digit, a line end or NUL.
#[test]
fn digits_as_letters() {
    let classes = classes::of("30,31,0 32,39,1 0D,0D,0 0A,0A,1 00,00,0");
    let made = |text: &[u8]| split(&turkish::code(), &classes, text).unwrap();
    assert_eq!(made(b"2021 baba"), b"20\xB721 baba");
    assert_eq!(made(b"29(2)\r\n\0"), b"(29)((2))\r\xB7\n\0");
}

/// After 0 and 1 come neither 0 nor 010: of the two readings of aba one is left.
#[test]
fn a_ban_takes_a_reading_away() {
    let code = Code::free(&["0", "1", "010"]);
    let bans = bans::of("0,0,1 2,0,1");
    let text = "aba abba";
    assert_eq!(made(&code, text), bytes("[aba] a·b·b·a"));
    assert_eq!(made(&enlarge(&code, &bans).unwrap(), text), bytes("aba a·b·b·a"));
    assert_eq!(by_hand(&code, &bans, &bytes(text)), bytes("aba a·b·b·a"));
}

/// Letters reach symbols 0 and 1 only; the words with others never fit.
#[test]
fn codes_over_more_symbols() {
    let code = Code::free(&["0", "21", "1F", "10"]);
    assert_eq!(made(&code, "baba b aba"), bytes("ba·ba (b) a·ba"));
    assert_eq!(made(&Code::free(&["2", "3"]), "baba, 1"), bytes("(baba), 1"));
}

/// The letters, in order, and other bytes stand in the output once.
#[test]
fn nothing_is_lost() {
    let mut random = Random(3);
    for _ in 0..3_000 {
        let code = if random.one_in(2) { generate::code(&mut random) } else { generate::enlarged_code(&mut random) };
        let classes = generate::classes(&mut random);
        let text = generate::text(&mut random, &code, &classes);
        let Ok(output) = split(&code, &classes, &text) else { continue };
        let added = [DOT, b'(', b')', b'[', b']'];
        let kept = |text: &[u8]| text.iter().copied().filter(|byte| !added.contains(byte)).collect::<Vec<u8>>();
        assert_eq!(kept(&output), kept(&text));
        let letters =
            |text: &[u8]| text.iter().copied().filter(|&byte| classes.symbol(byte).is_some()).collect::<Vec<u8>>();
        assert_eq!(letters(&output), letters(&text));
        assert!(output.len() <= 2 * text.len() + 1);
    }
}

fn lent(text: &[u8]) -> (Vec<u8>, Buffers) {
    let bytes = || vec![0x5A; text.len()];
    let buffers = Buffers { message: bytes(), first: bytes(), second: bytes(), working: vec![0x5A; text.len() + 1] };
    (vec![0x5A; 2 * text.len() + 1], buffers)
}

/// One reading, none and several: the output, and what the buffers hold, also past what is needed.
#[test]
fn lent_buffers() {
    let table = Reference.turkish();
    for (text, expected) in [("baba", "ba·ba"), ("bb", "(bb)"), ("kongre", "[kongre]"), ("", ""), ("1,2", "1,2")] {
        for spare in [0, 3] {
            let text = bytes(text);
            let (mut output, mut buffers) = lent(&text);
            output.resize(output.len() + spare, 0x5A);
            buffers.message.resize(text.len() + spare, 0x5A);
            buffers.first.resize(text.len() + 2 * spare, 0x5A);
            buffers.second.resize(text.len() + spare, 0x5A);
            buffers.working.resize(text.len() + 1 + spare, 0x5A);
            let mut left = output.clone();
            let expected = bytes(expected);
            left[..expected.len()].copy_from_slice(&expected);
            assert_eq!(
                Reference.split(&table, &TURKISH.entries(), &text, &mut output, &mut buffers),
                Ok(expected.len())
            );
            assert_eq!(output, left);
            let Buffers { message, first, second, working } = buffers;
            assert!([message, first, second].iter().flatten().all(|&entry| entry == 0));
            assert!(working.iter().all(|&entry| entry == 0));
        }
    }
}

/// Classes that no sheet gives: an entry above 16, a letter on a byte that is never one, no letter.
fn no_classes() -> Vec<Entries> {
    let changed = |at: u8, entry: u8| {
        let mut entries = TURKISH.entries();
        entries[at as usize] = entry;
        entries
    };
    let mut all = vec![changed(b' ', 17), changed(0xFF, 255), changed(b'a', 16 + 16), changed(DOT, 17), [OTHER; 256]];
    all.extend(RESERVED.map(|byte| changed(byte, 0)));
    all.extend(RESERVED.map(|byte| changed(byte, 15)));
    all
}

/// Refusals by their order: the table or the classes, then the text, then the buffers. Nothing changes.
#[test]
fn refusals() {
    let (table, letters) = (Reference.turkish(), Reference.turkish_classes());
    let none = Table { count: 0, ..table.clone() };
    let mut copy_begins = Table::of(&enlarge(&turkish::code(), &bans::of("0,0,1")).unwrap());
    copy_begins.starts[12] = 1;
    let (long, too_long) = (vec![b'a'; MAX_TEXT_BYTES], vec![b' '; MAX_TEXT_BYTES + 1]);
    let refused = |table: &Table, classes: &Entries, text: &[u8], room: &[u8]| {
        let (mut output, mut buffers) = lent(room);
        let before = (output.clone(), buffers.clone());
        let answer = Reference.split(table, classes, text, &mut output, &mut buffers);
        assert_eq!((output, buffers), before);
        answer.unwrap_err()
    };
    let mut unfit: Vec<(&Table, Entries)> = [&none, &copy_begins, &Table::BLANK].map(|none| (none, letters)).to_vec();
    unfit.extend(no_classes().into_iter().flat_map(|classes| [(&table, classes), (&none, classes)]));
    for (table, classes) in unfit {
        for text in [&b""[..], b"baba", &too_long] {
            assert_eq!(refused(table, &classes, text, text), Refusal::NotFromSheet);
            assert_eq!(refused(table, &classes, text, b""), Refusal::NotFromSheet);
        }
    }
    assert_eq!(refused(&table, &letters, &too_long, &too_long), Refusal::MessageLength);
    assert_eq!(refused(&table, &letters, &too_long, b""), Refusal::MessageLength);
    assert_eq!(refused(&table, &letters, &long, &long[1..]), Refusal::ShortBuffer);
    let (mut output, mut buffers) = lent(&long);
    assert_eq!(Reference.split(&table, &letters, &long, &mut output, &mut buffers), Ok(2 * MAX_TEXT_BYTES - 1));
}

/// Each buffer one entry too short by itself.
#[test]
fn short_buffers() {
    let table = Reference.turkish();
    for text in [&b"baba"[..], b"bb", b"kongre", b"1,2"] {
        for short in 0..5 {
            let (mut output, mut buffers) = lent(text);
            match short {
                0 => drop(output.pop()),
                1 => drop(buffers.message.pop()),
                2 => drop(buffers.first.pop()),
                3 => drop(buffers.second.pop()),
                _ => drop(buffers.working.pop()),
            }
            let before = (output.clone(), buffers.clone());
            assert_eq!(
                Reference.split(&table, &TURKISH.entries(), text, &mut output, &mut buffers),
                Err(Refusal::ShortBuffer)
            );
            assert_eq!((output, buffers), before, "{short}");
        }
    }
    // An empty text needs an output buffer and a working buffer of one entry.
    for (output, working) in [(0, 1), (1, 0)] {
        let (mut lent_output, mut buffers) = lent(b"");
        lent_output.truncate(output);
        buffers.working.truncate(working);
        let answer = Reference.split(&table, &TURKISH.entries(), b"", &mut lent_output, &mut buffers);
        assert_eq!(answer, Err(Refusal::ShortBuffer));
    }
}

/// What the program prints: with sheets and without, and the code sheet's refusal before that of the class sheet, which comes
/// before the text's.
#[test]
fn printed_texts() {
    let text = bytes("kraliçe kongre\r\n");
    let too_long = vec![b'a'; MAX_TEXT_BYTES + 1];
    let six = write(&turkish_six());
    assert_eq!(print::split(None, None, &text), bytes("kra·li·çe [kongre]\r\n"));
    assert_eq!(print::split(Some(&six), None, &text), bytes("(kraliçe) kong·re\r\n"));
    assert_eq!(print::split(None, None, &too_long), b"refused,11\r\n");
    assert_eq!(print::split(Some(&six), None, &too_long), b"refused,11\r\n");
    assert_eq!(print::split(Some(b""), None, &too_long), b"refused,1\r\n");
    assert_eq!(print::split(Some(b"0,2\r\n"), None, &text), b"refused,7\r\n");
    assert_eq!(print::split(None, None, b""), b"");
    let ascii = b"61,61,0\r\n65,65,0\r\n69,69,0\r\n6F,6F,0\r\n6B,6E,1\r\n72,72,1\r\n";
    assert_eq!(print::split(Some(&six), Some(ascii), &text), bytes("(krali)çe kongre\r\n"));
    assert_eq!(print::split(Some(&six), Some(ascii), &too_long), b"refused,11\r\n");
    for (classes, refused) in [
        (&b""[..], &b"refused,1\r\n"[..]),
        (b"61,61", b"refused,18\r\n"),
        (b"62,61,0", b"refused,19\r\n"),
        (b"61,61,0\r\n61,61,0", b"refused,20\r\n"),
    ] {
        assert_eq!(print::split(Some(&six), Some(classes), &text), refused);
        assert_eq!(print::split(Some(&six), Some(classes), &too_long), refused);
        assert_eq!(print::split(Some(b"0,2\r\n"), Some(classes), &too_long), b"refused,7\r\n");
    }
}

/// The codes with ban lists that are stored: brute force looks the bans up.
#[test]
fn stored_ban_lists() {
    let mut random = Random(4);
    for case in banned() {
        let enlarged = enlarge(&case.code, &case.bans).unwrap();
        assert_eq!(without_copies(&enlarged).0, case.code);
        if case.code.words.len() > 6 {
            continue;
        }
        for _ in 0..20 {
            let text = short_text(&mut random);
            assert_eq!(split(&enlarged, &TURKISH, &text).unwrap(), by_hand(&case.code, &case.bans, &text));
        }
    }
}
