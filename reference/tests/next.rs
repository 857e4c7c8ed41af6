//! The next word of a message that is still coming in: against brute force, its
//! refusals in their order, and what is left in the working buffer.

use reference::bans::{self, Ban};
use reference::brute::{next_by_prefixes, next_by_sequences};
use reference::cases::{code_t, code_u, lines, lines_with_marks_and_bans, turkish_six, Lines};
use reference::code::{Code, Refusal};
use reference::copies::{enlarge, without_copies};
use reference::encode::joined;
use reference::generate;
use reference::largest;
use reference::next::{first_words, next};
use reference::operations::{Operations, Reference, VERDICT_WORKING};
use reference::random::Random;
use reference::read::{first_two, Readings};
use reference::small::{all_bans, codes, codes_of_two_words, messages, of_bits, with_all_starts};
use reference::table::Table;
use reference::verdict::verdict;

/// What an entry of the working buffer holds before a call, so that a change shows.
const MARK: u64 = 0x5A;

/// The operation with a working buffer of this length. It is unchanged after 8, 11 and 13, and else all zero.
fn with_working(table: &Table, message: &[u8], length: usize) -> Result<u8, Refusal> {
    let mut working = vec![MARK; length];
    let answer = Reference.next(table, message, &mut working);
    let unchanged = [Refusal::NotFromSheet, Refusal::MessageLength, Refusal::ShortBuffer].map(Err).contains(&answer);
    let left = if unchanged { MARK } else { 0 };
    assert!(working.iter().all(|&entry| entry == left), "{answer:?}");
    answer
}

/// The operation with the buffer that it needs.
fn named(code: &Code, message: &[u8]) -> Result<u8, Refusal> {
    with_working(&Table::of(code), message, VERDICT_WORKING)
}

/// The answer that brute force gives.
fn by_brute_force(code: &Code, bans: &[Ban], delay: usize, message: &[u8]) -> Result<u8, Refusal> {
    if message.iter().take(delay).any(|&symbol| symbol > 15) {
        return Err(Refusal::MessageSymbol);
    }
    let words = next_by_prefixes(code, bans, delay, message);
    assert!(words.len() < 2, "{words:?}");
    words.first().copied().filter(|_| !message.is_empty()).ok_or(Refusal::NoReading)
}

#[test]
fn listed_messages() {
    for Lines { code, bans, delay, lines } in lines().into_iter().chain(lines_with_marks_and_bans()) {
        let enlarged = enlarge(&code, &bans).unwrap();
        assert_eq!(verdict(&enlarged).delay(), delay, "{code:?}");
        for (message, answer) in lines {
            assert_eq!(named(&enlarged, &message), answer, "{code:?} {bans:?} {message:?}");
            if let Some(delay) = delay {
                assert_eq!(by_brute_force(&code, &bans, delay, &message), answer, "{code:?} {bans:?} {message:?}");
            }
        }
    }
}

/// Every binary message of up to two symbols more than the delay, against the
/// list of all sequences; how many have a word and how many have none.
fn agrees_with_sequences(code: &Code, bans: &[Ban], met: &mut [usize; 2]) {
    let enlarged = enlarge(code, bans).unwrap();
    let Some(delay) = verdict(&enlarged).delay() else { return };
    let words = next_by_sequences(code, bans, delay);
    assert!(words.values().all(|words| words.len() == 1), "{code:?} {bans:?}");
    for message in messages(delay + 2) {
        let only = words.get(&message[..message.len().min(delay)]).and_then(|words| words.first().copied());
        let expected = only.filter(|_| !message.is_empty()).ok_or(Refusal::NoReading);
        assert_eq!(next(&enlarged, delay, &message), expected, "{code:?} {bans:?} {message:?}");
        met[usize::from(expected.is_err())] += 1;
    }
}

#[test]
fn every_binary_code_of_three_words_and_four_symbols() {
    let mut met = [0; 2];
    let codes = codes(4).inspect(|code| agrees_with_sequences(code, &[], &mut met));
    assert_eq!(codes.count(), 30 * 2 + 68 * 16 + 56 * 512);
    println!("{} with a next word, {} without", met[0], met[1]);
    assert!(met.iter().all(|&times| times > 50_000));
}

#[test]
fn every_choice_of_words_that_may_begin() {
    let mut met = [0; 2];
    let codes = codes(4).flat_map(with_all_starts).inspect(|code| agrees_with_sequences(code, &[], &mut met));
    assert_eq!(codes.count(), 30 * 4 + 68 * 64 + 56 * 4_096);
    println!("{} with a next word, {} without", met[0], met[1]);
    assert!(met.iter().all(|&times| times > 50_000));
}

#[test]
fn every_code_of_two_words_with_all_bans() {
    let (all, mut met) = (all_bans(2), [0; 2]);
    for code in codes_of_two_words() {
        (0..16).for_each(|bits| agrees_with_sequences(&code, &of_bits(&all, bits), &mut met));
    }
    println!("{} with a next word, {} without", met[0], met[1]);
    assert!(met.iter().all(|&times| times > 50_000));
}

/// Codes of the generator with copies that are small enough for lists of all sequences.
#[test]
fn small_generated_codes_with_bans() {
    let mut random = Random(4);
    let (mut met, mut agreed) = ([0; 2], 0);
    for _ in 0..10_000 {
        let enlarged = generate::enlarged_code(&mut random);
        let (code, bans) = without_copies(&enlarged);
        if code.symbols() <= 12 && verdict(&enlarged).delay().is_some_and(|delay| delay <= 6) {
            agrees_with_sequences(&code, &bans, &mut met);
            agreed += 1;
        }
    }
    println!("{agreed} codes agree; {} messages with a next word, {} without", met[0], met[1]);
    assert!(agreed > 500 && met.iter().all(|&times| times > 5_000));
}

/// Codes of the generator, half of them with copies, and its messages. Brute
/// force gets the words and the bans that the copies stand for.
#[test]
fn generated_codes() {
    let mut random = Random(1);
    let (mut named, mut cut, mut none, mut high) = (0, 0, 0, 0);
    for round in 0..6_000 {
        let enlarged = if round % 2 == 0 { generate::code(&mut random) } else { generate::enlarged_code(&mut random) };
        let Some(delay) = verdict(&enlarged).delay().filter(|&delay| delay < 40) else { continue };
        let (code, bans) = without_copies(&enlarged);
        for _ in 0..10 {
            let message = generate::line(&mut random, &enlarged, Some(delay));
            let answer = next(&enlarged, delay, &message);
            assert_eq!(answer, by_brute_force(&code, &bans, delay, &message), "{code:?} {bans:?} {message:?}");
            named += usize::from(answer.is_ok());
            cut += usize::from(answer.is_ok() && first_two(&enlarged, &message).is_none());
            none += usize::from(answer == Err(Refusal::NoReading));
            high += usize::from(answer == Err(Refusal::MessageSymbol));
        }
    }
    println!("{named} named, {cut} of these without a reading; {none} without a next word, {high} with a high symbol");
    assert!(named > 3_000 && cut > 1_000 && none > 3_000 && high > 300);
}

/// For a message with a reading the next word is that reading's first.
#[test]
fn the_first_word_of_a_reading() {
    let mut random = Random(2);
    let mut read = 0;
    for _ in 0..3_000 {
        let code = if random.one_in(2) { generate::code(&mut random) } else { generate::enlarged_code(&mut random) };
        let Some(delay) = verdict(&code).delay() else { continue };
        for words in [1, 2, 3, 20] {
            let sequence = generate::permitted_sequence(&mut random, &code, words);
            let Some(&first) = sequence.first() else { continue };
            let message = joined(&code, &sequence);
            assert_eq!(first_two(&code, &message), Some(Readings::One(sequence)), "{code:?}");
            assert_eq!(next(&code, delay, &message), Ok(first), "{code:?} {message:?}");
            read += 1;
        }
    }
    println!("{read} messages");
    assert!(read > 3_000);
}

/// Messages that differ only behind the first symbols, as many as the delay,
/// have the same next word; and so has one that ends there.
#[test]
fn what_stands_behind_does_not_count() {
    let mut random = Random(3);
    let mut met = [0; 2];
    for _ in 0..2_000 {
        let code = generate::code(&mut random);
        let Some(delay) = verdict(&code).delay() else { continue };
        let message = generate::line(&mut random, &code, Some(delay));
        if message.len() < delay.max(1) {
            continue;
        }
        let answer = next(&code, delay, &message);
        let begin = &message[..delay.max(1)];
        for behind in [&[][..], &[0], &[1, 1, 1], &[16], &[255; 40]] {
            assert_eq!(next(&code, delay, &[begin, behind].concat()), answer, "{code:?} {message:?} {behind:?}");
        }
        met[usize::from(answer.is_err())] += 1;
    }
    assert!(met.iter().all(|&times| times > 100), "{met:?}");
}

/// For every delay above 0 of the listed codes, one symbol less leaves two words open for some message; so many leave one for all.
#[test]
fn one_symbol_less_is_too_few() {
    for Lines { code, bans, delay, .. } in lines() {
        let Some(delay) = delay else { continue };
        let enlarged = enlarge(&code, &bans).unwrap();
        let open = |seen: usize| {
            messages(seen)
                .filter(|symbols| symbols.len() == seen)
                .any(|symbols| first_words(&enlarged, &symbols, false).len() > 1)
        };
        assert!(!open(delay) && open(delay - 1), "{code:?}");
    }
}

/// Two words that share 279 symbols but for the last.
#[test]
fn the_largest_delay() {
    let code = largest::delay();
    let delay = verdict(&code).delay().unwrap();
    let sequences = [0, 3, 4].map(|first| long_sequence(&code, first, delay + 1));
    for sequence in &sequences {
        let mut message = joined(&code, sequence);
        assert!(message.len() > delay);
        assert_eq!(named(&code, &message), Ok(sequence[0]));
        message.truncate(delay);
        assert_eq!(named(&code, &message), Ok(sequence[0]));
        message[delay - 1] = 16;
        assert_eq!(named(&code, &message), Err(Refusal::MessageSymbol));
        message[delay - 1] = 15;
        assert_eq!(named(&code, &message), Err(Refusal::NoReading));
    }
}

/// A sequence that begins with this word and then has the lowest each time, until the message has so many symbols.
fn long_sequence(code: &Code, first: u8, symbols: usize) -> Vec<u8> {
    let mut sequence = vec![first];
    while joined(code, &sequence).len() < symbols {
        let choices = code.choices(sequence.last().copied());
        sequence.push(choices.trailing_zeros() as u8);
    }
    sequence
}

/// A code with delay 0: no word, one word, or one that begins and one that is forced after it.
fn codes_without_doubt() -> [(Code, Result<u8, Refusal>); 4] {
    [
        (Code::free(&["0"]), Ok(0)),
        (Code::of(&["0", "1"], &["01", "10"]).with_starts("01"), Ok(1)),
        (Code::of(&["5"], &["0"]), Ok(0)),
        (Code::free(&["0", "01"]).with_starts("00"), Err(Refusal::NoReading)),
    ]
}

/// No symbol is looked at, whatever the message is; but the empty message has no next word.
#[test]
fn no_symbol_is_needed() {
    for (code, answer) in codes_without_doubt() {
        assert_eq!(verdict(&code).delay(), Some(0));
        let messages: [&[u8]; 8] = [&[0], &[1], &[9, 9], &[15], &[16], &[255, 0], &[7; 16_384], &[255; 16_384]];
        for message in messages {
            assert_eq!(named(&code, message), answer, "{code:?}");
        }
        assert_eq!(named(&code, &[]), Err(Refusal::NoReading));
        assert_eq!(named(&code, &[0; 16_385]), Err(Refusal::MessageLength));
    }
}

#[test]
fn the_empty_message() {
    let unbounded = Code::free(&["0", "01", "11"]);
    for code in [code_u(), turkish_six(), Code::free(&["0"]), Code::free(&["0"]).with_starts("0")] {
        assert_eq!(named(&code, &[]), Err(Refusal::NoReading));
    }
    for code in [code_t(), unbounded] {
        assert_eq!(named(&code, &[]), Err(Refusal::NoFiniteDelay));
        assert_eq!(with_working(&Table::of(&code), &[], VERDICT_WORKING - 1), Err(Refusal::ShortBuffer));
        assert_eq!(with_working(&Table { count: 0, ..Table::of(&code) }, &[], 0), Err(Refusal::NotFromSheet));
    }
}

/// The first word has a copy, or two; it is named by its own number. Without a copy it is the same.
#[test]
fn words_that_have_copies() {
    let code = Code::free(&["00", "1", "2"]);
    for list in ["", "2,1,0", "2,1,0 1,2,0", "0,0,1 0,0,2 0,1,2", "0,1,0 0,2,0 1,0,1 1,2,1"] {
        let enlarged = enlarge(&code, &bans::of(list)).unwrap();
        for (message, word) in [([0, 0, 1], 0), ([1, 0, 0], 1), ([2, 0, 0], 2), ([1, 1, 1], 1), ([2, 2, 1], 2)] {
            assert_eq!(named(&enlarged, &message), Ok(word), "{list}");
        }
    }
}

/// 8 before 11 before 13 before the others: a table that no sheet gives or one
/// of each kind; messages that are too long, empty or have a high symbol; a
/// working buffer that is too short.
#[test]
fn the_order_of_the_refusals() {
    let delay_2 = Table::of(&Code::free(&["0", "01"]));
    let ambiguous = Table::of(&code_t());
    let unbounded = Table::of(&Code::free(&["0", "01", "11"]));
    let not_given = Table { count: 33, ..ambiguous.clone() };
    let (long, longest) = ([255; 16_385], [255; 16_384]);
    let short = VERDICT_WORKING - 1;
    for length in [0, short, VERDICT_WORKING, VERDICT_WORKING + 9] {
        for message in [&[][..], &[0], &[16], &longest, &long] {
            assert_eq!(with_working(&not_given, message, length), Err(Refusal::NotFromSheet));
        }
        for table in [&delay_2, &ambiguous, &unbounded] {
            assert_eq!(with_working(table, &long, length), Err(Refusal::MessageLength));
        }
    }
    for table in [&delay_2, &ambiguous, &unbounded] {
        for message in [&[][..], &[0], &[0, 1], &[16], &[2, 16], &longest] {
            for length in [0, 20, short] {
                assert_eq!(with_working(table, message, length), Err(Refusal::ShortBuffer));
            }
        }
    }
}

/// The refusals behind that of the buffer: 21 before 12 and 14, and 12 before 14.
#[test]
fn the_order_behind_the_buffer() {
    let delay_2 = Table::of(&Code::free(&["0", "01"]));
    let endless = [code_t(), Code::free(&["0", "01", "11"])].map(|code| Table::of(&code));
    let longest = [255; 16_384];
    for length in [VERDICT_WORKING, VERDICT_WORKING + 1, 2 * VERDICT_WORKING] {
        for table in &endless {
            for message in [&[][..], &[0], &[16], &[2, 16], &longest] {
                assert_eq!(with_working(table, message, length), Err(Refusal::NoFiniteDelay));
            }
        }
        // In the second message no word begins with 2; in the third no symbol counts behind the second.
        for (message, answer) in [
            (&[16][..], Err(Refusal::MessageSymbol)),
            (&[2, 16], Err(Refusal::MessageSymbol)),
            (&[2, 0, 16], Err(Refusal::NoReading)),
            (&[0, 1, 16], Ok(1)),
            (&longest, Err(Refusal::MessageSymbol)),
            (&[], Err(Refusal::NoReading)),
        ] {
            assert_eq!(with_working(&delay_2, message, length), answer);
        }
    }
}

/// Messages as long as may be, and one symbol longer.
#[test]
fn the_longest_messages() {
    let code = Code::free(&["0", "01"]);
    for (symbol, answer) in [(0, Ok(0)), (1, Err(Refusal::NoReading)), (16, Err(Refusal::MessageSymbol))] {
        assert_eq!(named(&code, &[symbol; 16_384]), answer);
        assert_eq!(named(&code, &[symbol; 16_385]), Err(Refusal::MessageLength));
    }
}
