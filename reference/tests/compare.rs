//! The comparison covers every answer and catches programs with a slip.

use reference::bans;
use reference::classes::{Classes, Entries, OTHER, RESERVED};
use reference::code::{Code, Refusal};
use reference::compare::compare;
use reference::copies::{enlarge, without_copies};
use reference::encode::joined;
use reference::letters::TURKISH;
use reference::next::first_words;
use reference::operations::{Buffers, Operations, ReadingLengths, Reference, VerdictLengths, VERDICT_WORKING};
use reference::pairs::walk;
use reference::read::{first_two, Readings};
use reference::rivals::Rivals;
use reference::split::{words, Kind, Word, DOT, MAX_TEXT_BYTES};
use reference::table::Table;
use reference::verdict::{verdict, Verdict};

#[test]
fn every_answer_is_met() {
    let met = compare(&mut Reference, 1, 10_000).unwrap();
    println!("{met:?}");
    assert!(met.refused[1..].iter().all(|&times| times >= 20), "{met:?}");
    let answers = [met.accepted, met.built_in, met.enlarged, met.encoded, met.one_reading, met.two_readings];
    let texts = [met.split, met.words_split, met.words_without_reading, met.words_with_several];
    let classes = [met.class_sheets, met.split_by_other_classes, met.refused_classes];
    let verdicts = [met.ambiguous, met.delayed, met.unbounded];
    let next = [met.next_words, met.next_words_at_once, met.next_words_without_reading, met.no_next_word];
    let all = [&answers[..], &texts, &classes, &verdicts, &next].concat();
    assert!(all.iter().all(|&times| times >= 20), "{met:?}");
}

/// The reference with one slip.
struct Wrong(Slip);

#[derive(Clone, Copy, PartialEq, Debug)]
enum Slip {
    None,
    TableOfRefusedSheet,
    StartFieldsDemanded,
    MixedFieldsAccepted,
    StartFieldBeforeRowEntry,
    MarkFromRowEntry,
    BuiltInEntry,
    TableOfRefusedList,
    LeadingZeroAccepted,
    LastBlankLineAccepted,
    EqualYAndZAccepted,
    ListOneByteLonger,
    LimitBeforeBans,
    CodeWithCopiesEnlarged,
    WordStaysAfterY,
    CopyAfterYOnly,
    CopyPerBan,
    CopyMayBegin,
    CopiesByNumber,
    FollowerNotAsItsCopy,
    BanOnlyAfterWord,
    CopyWithoutBanAccepted,
    CopyOfAnotherWordAccepted,
    CopyNumbersEncoded,
    BannedThreeEncoded,
    ClassesOfRefusedSheet,
    RangeWithoutItsLastByte,
    LastByteOfAllLeftOut,
    OthersAsVowels,
    SymbolsUpToNine,
    LowerCaseAccepted,
    LineFeedAccepted,
    BlankLineAtTheEndAccepted,
    LastRecordWithoutLineEndLost,
    FourthFieldIgnored,
    OneDigitAccepted,
    LongDigitsAccepted,
    ReservedAtTheEndsOnly,
    BracketsInsideARangeAccepted,
    OneBracketForgotten,
    ReservedInUpsideDownRange,
    RangeBeforeRecord,
    OverlapBeforeRange,
    UpsideDownTurned,
    UpsideDownIgnored,
    OverlapByOneByteAccepted,
    SameRecordTwiceAccepted,
    OverlapOfSameSymbolAccepted,
    LastRecordWins,
    EmptyClassSheetAccepted,
    ClassSheetOneByteLonger,
    ClassSheetOneByteShorter,
    CapitalTakenAsOther,
    AccentTakenAsLetter,
    TableNotChecked,
    MarksNotChecked,
    MessageOneLonger,
    MarksIgnoredByEncoding,
    WorkingBufferLeft,
    SecondReadingWritten,
    ReadingsExchanged,
    MarksIgnoredByReading,
    ReadingsNameCopies,
    OrderByCopies,
    BansIgnoredByReading,
    DotBeforeFirstSyllable,
    BracketsExchanged,
    SeveralSplitByTheFirst,
    LastWordLost,
    DotsOfTheTextLost,
    TurkishWhateverTheClasses,
    SymbolsAboveOneAsOne,
    LetterFFTakenAsOther,
    ClassesAbove16AsOther,
    ReservedLettersAsOther,
    ClassesWithoutLettersAccepted,
    LongTextBeforeClasses,
    ShortBufferBeforeClasses,
    MarksIgnoredBySplitting,
    BansIgnoredBySplitting,
    MessageLeftBySplitting,
    ReadingLeftBySplitting,
    WorkingBufferLeftBySplitting,
    ClearedAsFarAsTheText,
    OutputOneLonger,
    ClearedBeforeRefusal,
    TextOneByteLonger,
    ShortBufferBeforeLongText,
    LongTextBeforeTable,
    OutputAsLongAsWritten,
    DelayOneLess,
    WorkingBufferLeftByVerdict,
    MarksIgnoredByVerdict,
    BansIgnoredByVerdict,
    VerdictNamesCopies,
    UnreachedWordsGivePairs,
    OnlyBeginningWordsGivePairs,
    OpeningLeftOut,
    OpeningCounted,
    DelayWithoutRivals,
    NextByOneSymbolLess,
    NextByOneSymbolMore,
    ShortMessageTakenAsCut,
    CutMessageTakenAsWhole,
    NextByItsOwnSymbols,
    FollowersIgnoredByNext,
    MarksIgnoredByNext,
    BansIgnoredByNext,
    NextNamesACopy,
    NoNextWordWithoutSymbols,
    ZeroDelayTakenAsNone,
    EmptyMessageAccepted,
    UnboundedTakenAsWhole,
    AmbiguousTakenAsWhole,
    SymbolsBehindTheDelayTested,
    SymbolBeforeNoFiniteDelay,
    EmptyMessageBeforeNoFiniteDelay,
    NoNextWordBeforeSymbol,
    LongMessageBeforeTable,
    ShortBufferBeforeTable,
    LongMessageCutToTheDelay,
    NextMessageOneLonger,
    ShortBufferBeforeLongMessage,
    NoFiniteDelayBeforeShortBuffer,
    WorkingBufferAsForReading,
    ClearedBeforeShortBuffer,
    ClearedBeforeLongMessage,
    WorkingBufferLeftWithoutNextWord,
    WorkingBufferLeftByNoFiniteDelay,
    WorkingBufferLeftBySymbol,
    WorkingBufferLeftByNext,
}

impl Operations for Wrong {
    fn take_in(&mut self, sheet: &[u8]) -> (Option<Refusal>, Table) {
        let (refusal, mut table) = Reference.take_in(sheet);
        match (self.0, refusal) {
            (Slip::TableOfRefusedSheet, Some(_)) => table.count = 1,
            (Slip::StartFieldsDemanded, None) if fields(sheet)[0].len() == table.count + 1 => {
                return (Some(Refusal::FieldCount), Table::BLANK)
            }
            (Slip::MixedFieldsAccepted, Some(Refusal::FieldCount)) => return Reference.take_in(&filled_up(sheet)),
            (Slip::StartFieldBeforeRowEntry, Some(Refusal::RowEntry)) if start_field_is_wrong(sheet) => {
                return (Some(Refusal::StartField), table)
            }
            (Slip::MarkFromRowEntry, None) if fields(sheet)[0].len() == table.count + 2 => {
                table.starts = std::array::from_fn(|word| table.rows[word].entries[0]);
            }
            _ => {}
        }
        (refusal, table)
    }

    fn turkish(&mut self) -> Table {
        let mut table = Reference.turkish();
        if self.0 == Slip::BuiltInEntry {
            // Type L starts with one consonant and may follow A.
            table.rows[11].entries[0] = 0;
        }
        table
    }

    fn enlarge(&mut self, table: &Table, list: &[u8]) -> (Option<Refusal>, Table) {
        let (refusal, mut enlarged) = Reference.enlarge(table, list);
        match (self.0, refusal) {
            (Slip::TableOfRefusedList, Some(_)) => enlarged = table.clone(),
            (Slip::LeadingZeroAccepted, Some(Refusal::BanRecord)) => {
                return Reference.enlarge(table, &without_leading_zeros(list))
            }
            (Slip::LastBlankLineAccepted, Some(Refusal::BanRecord)) if list.ends_with(b"\r\n\r\n") => {
                return Reference.enlarge(table, &list[..list.len() - 2])
            }
            (Slip::EqualYAndZAccepted, Some(Refusal::BanRecord)) => {
                return Reference.enlarge(table, &without_equal_y_and_z(list))
            }
            (Slip::ListOneByteLonger, Some(Refusal::SheetLength)) if list.len() == 4_097 && list.ends_with(b"\r\n") => {
                return Reference.enlarge(table, &list[..list.len() - 2])
            }
            (Slip::LimitBeforeBans, Some(Refusal::BanRecord)) => {
                let sound: Vec<&[u8]> = list.split(|&byte| byte == b'\n').collect();
                return (Reference.enlarge(table, sound[0]).0.or(refusal), enlarged);
            }
            (Slip::CodeWithCopiesEnlarged, Some(Refusal::NotFromSheet)) if table.code().is_some() => {
                let plain = Code { copies: Vec::new(), ..table.code().unwrap() };
                return Reference.enlarge(&Table::of(&plain), list);
            }
            (Slip::CopyPerBan, None) => return enlarged_by_ban(table, list),
            (_, None) => wrong_copies(self.0, table, &mut enlarged),
            _ => {}
        }
        (refusal, enlarged)
    }

    fn take_classes(&mut self, sheet: &[u8]) -> (Option<Refusal>, Entries) {
        match taken_with(self.0, sheet) {
            Ok(entries) => (None, entries),
            Err(refusal) => {
                let mut entries = [OTHER; 256];
                entries[0] -= u8::from(self.0 == Slip::ClassesOfRefusedSheet);
                (Some(refusal), entries)
            }
        }
    }

    fn turkish_classes(&mut self) -> Entries {
        let mut entries = Reference.turkish_classes();
        match self.0 {
            // The capital of i, and a with a circumflex.
            Slip::CapitalTakenAsOther => entries[0xDD] = OTHER,
            Slip::AccentTakenAsLetter => entries[0xE2] = 0,
            _ => {}
        }
        entries
    }

    fn encode(&mut self, table: &Table, sequence: &[u8], message: &mut [u8]) -> Result<usize, Refusal> {
        if self.0 == Slip::MarksIgnoredByEncoding {
            return Reference.encode(&without_marks(table), sequence, message);
        }
        let answer = Reference.encode(table, sequence, message);
        let mended = match (self.0, answer) {
            (Slip::CopyWithoutBanAccepted, Err(Refusal::NotFromSheet)) => without_idle_copies(table),
            (Slip::CopyOfAnotherWordAccepted, Err(Refusal::NotFromSheet)) => with_the_words_copied(table),
            (Slip::CopyNumbersEncoded, Err(Refusal::UnknownWord)) => named_as_words(table),
            (Slip::BannedThreeEncoded, Err(Refusal::ForbiddenPair)) => without_bans(table),
            _ => None,
        };
        if let Some(mended) = mended {
            return Reference.encode(&mended, sequence, message);
        }
        if self.0 == Slip::TableNotChecked && answer == Err(Refusal::NotFromSheet) {
            return Ok(0);
        }
        if self.0 == Slip::MarksNotChecked && answer == Err(Refusal::NotFromSheet) {
            return Reference.encode(&with_mended_marks(table), sequence, message);
        }
        if let (Slip::MessageOneLonger, Ok(length)) = (self.0, answer) {
            message.iter_mut().skip(length).take(1).for_each(|symbol| *symbol = 0);
        }
        answer
    }

    fn read(&mut self, table: &Table, message: &[u8], buffers: &mut Buffers) -> Result<ReadingLengths, Refusal> {
        if self.0 == Slip::MarksIgnoredByReading {
            return Reference.read(&without_marks(table), message, buffers);
        }
        let before = buffers.clone();
        let answer = Reference.read(table, message, buffers);
        if let (Slip::BansIgnoredByReading, Some(words)) = (self.0, without_bans(table)) {
            *buffers = before;
            return Reference.read(&words, message, buffers);
        }
        if let (Slip::OrderByCopies, Ok(_), Some(plain)) = (self.0, answer, named_as_words(table)) {
            *buffers = before;
            let answer = Reference.read(&plain, message, buffers);
            rename(buffers, lengths(answer), |word, _| table.origins[word as usize]);
            return answer;
        }
        if self.0 == Slip::ReadingsNameCopies {
            rename(buffers, lengths(answer), |word, last| standing(table, word, last));
        }
        match (self.0, answer) {
            (Slip::WorkingBufferLeft, Err(Refusal::NoReading)) => buffers.working = before.working,
            (Slip::SecondReadingWritten, Ok(ReadingLengths::One(length))) => {
                buffers.second[..length].copy_from_slice(&buffers.first[..length])
            }
            (Slip::ReadingsExchanged, Ok(ReadingLengths::Two(first, second))) => {
                return Ok(ReadingLengths::Two(second, first))
            }
            _ => {}
        }
        answer
    }

    fn split(
        &mut self,
        table: &Table,
        classes: &Entries,
        text: &[u8],
        output: &mut [u8],
        buffers: &mut Buffers,
    ) -> Result<usize, Refusal> {
        match self.0 {
            Slip::MarksIgnoredBySplitting => {
                return Reference.split(&without_marks(table), classes, text, output, buffers)
            }
            Slip::BansIgnoredBySplitting => {
                let words = without_bans(table).unwrap_or_else(|| table.clone());
                return Reference.split(&words, classes, text, output, buffers);
            }
            Slip::LongTextBeforeTable if text.len() > MAX_TEXT_BYTES => return Err(Refusal::MessageLength),
            _ if table.code().is_some() => {
                if let Some(result) = by_other_classes(self.0, table, classes, text, output, buffers) {
                    return result;
                }
            }
            _ => {}
        }
        let before = (output.to_vec(), buffers.clone());
        let answer = Reference.split(table, classes, text, output, buffers);
        match (self.0, answer) {
            (Slip::ClearedBeforeRefusal, Err(Refusal::ShortBuffer)) => buffers.message.fill(0),
            (Slip::TextOneByteLonger, Err(Refusal::MessageLength)) if text.len() == MAX_TEXT_BYTES + 1 => {
                return Reference.split(table, classes, &text[..MAX_TEXT_BYTES], output, buffers)
            }
            (Slip::ShortBufferBeforeLongText, Err(Refusal::MessageLength)) if output.len() <= 2 * text.len() => {
                return Err(Refusal::ShortBuffer)
            }
            (Slip::OutputAsLongAsWritten, Err(Refusal::ShortBuffer)) => {
                let mut longer = vec![0; 2 * text.len() + 1];
                let length = Reference.split(table, classes, text, &mut longer, buffers)?;
                let room = output.get_mut(..length).ok_or(Refusal::ShortBuffer)?;
                room.copy_from_slice(&longer[..length]);
                return Ok(length);
            }
            _ => {}
        }
        let length = answer?;
        match self.0 {
            Slip::MessageLeftBySplitting => buffers.message = before.1.message,
            Slip::ReadingLeftBySplitting => buffers.second = before.1.second,
            Slip::WorkingBufferLeftBySplitting => buffers.working = before.1.working,
            Slip::ClearedAsFarAsTheText => {
                buffers.first[text.len()..].copy_from_slice(&before.1.first[text.len()..]);
                buffers.working[text.len() + 1..].copy_from_slice(&before.1.working[text.len() + 1..]);
            }
            Slip::OutputOneLonger => output.iter_mut().skip(length).take(1).for_each(|byte| *byte = 0),
            slip => {
                let code = table.code().expect("the table is not refused");
                let classes = Classes::given(classes).expect("the classes are not refused");
                let written = split_with(slip, &code, &classes, text);
                output.copy_from_slice(&before.0);
                // Where a dot too much finds no room the output ends.
                let written = &written[..written.len().min(output.len())];
                output[..written.len()].copy_from_slice(written);
                return Ok(written.len());
            }
        }
        answer
    }

    fn verdict(&mut self, table: &Table, buffers: &mut Buffers) -> Result<VerdictLengths, Refusal> {
        if self.0 == Slip::MarksIgnoredByVerdict {
            return Reference.verdict(&without_marks(table), buffers);
        }
        if let (Slip::BansIgnoredByVerdict, Some(words)) = (self.0, without_bans(table)) {
            return Reference.verdict(&words, buffers);
        }
        let before = buffers.clone();
        let answer = Reference.verdict(table, buffers)?;
        if let (Slip::VerdictNamesCopies, VerdictLengths::Ambiguous { first, second, .. }) = (self.0, answer) {
            rename(buffers, [first, second], |word, last| standing(table, word, last));
        }
        let code = table.code().expect("the table has a verdict");
        let rivals = Rivals::of(&code);
        let both_begin = |x: usize, y: usize| code.starts[x] && code.starts[y];
        let both_follow = |x: usize, y: usize| (0..code.words.len()).any(|z| code.rows[x][z] && code.rows[y][z]);
        Ok(match (self.0, answer) {
            (Slip::None, _) => by_first_pairs(&code, answer, |x, y| rivals.compete(x, y)),
            (Slip::UnreachedWordsGivePairs, _) => {
                by_first_pairs(&code, answer, |x, y| x != y && (both_begin(x, y) || both_follow(x, y)))
            }
            (Slip::OnlyBeginningWordsGivePairs, _) => by_first_pairs(&code, answer, |x, y| x != y && both_begin(x, y)),
            (Slip::DelayOneLess, VerdictLengths::Delay(delay)) => VerdictLengths::Delay(delay.saturating_sub(1)),
            (Slip::DelayWithoutRivals, VerdictLengths::Delay(0)) => VerdictLengths::Delay(1),
            (Slip::OpeningCounted, VerdictLengths::Delay(delay @ 1..)) => VerdictLengths::Delay(delay + opening(&code)),
            (Slip::OpeningLeftOut, VerdictLengths::Ambiguous { message, first, second }) => {
                let shared = buffers.first[..first].iter().zip(&buffers.second[..second]);
                let words = shared.take_while(|(word, other)| word == other).count();
                let symbols = joined(&code, &buffers.first[..words]).len();
                VerdictLengths::Ambiguous {
                    message: left_out(&mut buffers.message, &before.message, symbols, message),
                    first: left_out(&mut buffers.first, &before.first, words, first),
                    second: left_out(&mut buffers.second, &before.second, words, second),
                }
            }
            (Slip::WorkingBufferLeftByVerdict, VerdictLengths::Unbounded) => {
                buffers.working = before.working;
                answer
            }
            _ => answer,
        })
    }

    fn next(&mut self, table: &Table, message: &[u8], working: &mut [u64]) -> Result<u8, Refusal> {
        let before = working.to_vec();
        let answer = next_with(self.0, table, message, working);
        match (self.0, answer) {
            (Slip::WorkingBufferLeftWithoutNextWord, Err(Refusal::NoReading))
            | (Slip::WorkingBufferLeftByNoFiniteDelay, Err(Refusal::NoFiniteDelay))
            | (Slip::WorkingBufferLeftBySymbol, Err(Refusal::MessageSymbol))
            | (Slip::WorkingBufferLeftByNext, Ok(_)) => working.copy_from_slice(&before),
            _ => {}
        }
        answer
    }
}

/// The next word as a program with a slip names it, with the refusals before, written once more.
fn next_with(slip: Slip, table: &Table, message: &[u8], working: &mut [u64]) -> Result<u8, Refusal> {
    let most = Code::MAX_MESSAGE_SYMBOLS + usize::from(slip == Slip::NextMessageOneLonger);
    let needed = if slip == Slip::WorkingBufferAsForReading { message.len() + 1 } else { VERDICT_WORKING };
    let code = table.code();
    let verdict = code.as_ref().map(verdict);
    let too_long = (message.len() > most && slip != Slip::LongMessageCutToTheDelay, Refusal::MessageLength);
    let short = (working.len() < needed, Refusal::ShortBuffer);
    let not_given = (code.is_none(), Refusal::NotFromSheet);
    let tests = match slip {
        Slip::LongMessageBeforeTable => [too_long, not_given, short],
        Slip::ShortBufferBeforeTable => [short, not_given, too_long],
        Slip::ShortBufferBeforeLongMessage => [not_given, short, too_long],
        Slip::NoFiniteDelayBeforeShortBuffer if verdict.iter().any(|verdict| verdict.delay().is_none()) => {
            [not_given, too_long, (true, Refusal::NoFiniteDelay)]
        }
        _ => [not_given, too_long, short],
    };
    let refused = tests.into_iter().find(|(holds, _)| *holds).map(|(_, refusal)| refusal);
    let cleared = match refused {
        Some(Refusal::ShortBuffer) => slip == Slip::ClearedBeforeShortBuffer,
        Some(Refusal::MessageLength) => slip == Slip::ClearedBeforeLongMessage,
        refused => refused.is_none(),
    };
    if cleared {
        working.fill(0);
    }
    let given = refused.map_or(code.zip(verdict).ok_or(Refusal::NotFromSheet), Err)?;
    word_with(slip, &given.0, &given.1, message)
}

/// The same once table, length and buffer are tested: 21, 12 and 14.
fn word_with(slip: Slip, code: &Code, verdict: &Verdict, message: &[u8]) -> Result<u8, Refusal> {
    let is_high = |symbols: &[u8]| symbols.iter().any(|&symbol| symbol > 15);
    let delay = match (slip, verdict) {
        (Slip::UnboundedTakenAsWhole, Verdict::Unbounded) => message.len() + 1,
        (Slip::AmbiguousTakenAsWhole, Verdict::Ambiguous { .. }) => message.len() + 1,
        (Slip::ZeroDelayTakenAsNone, Verdict::Delay(0)) => return Err(Refusal::NoFiniteDelay),
        (Slip::NoNextWordWithoutSymbols, Verdict::Delay(0)) => return Err(Refusal::NoReading),
        (Slip::NextByOneSymbolLess, Verdict::Delay(delay)) => delay.saturating_sub(1),
        (Slip::NextByOneSymbolMore, Verdict::Delay(delay)) => delay + 1,
        (_, Verdict::Delay(delay)) => *delay,
        (Slip::SymbolBeforeNoFiniteDelay, _) if is_high(message) => return Err(Refusal::MessageSymbol),
        (Slip::EmptyMessageBeforeNoFiniteDelay, _) if message.is_empty() => return Err(Refusal::NoReading),
        _ => return Err(Refusal::NoFiniteDelay),
    };
    let symbols = &message[..message.len().min(delay)];
    let tested = if slip == Slip::SymbolsBehindTheDelayTested { message } else { symbols };
    if is_high(tested) && slip != Slip::NoNextWordBeforeSymbol {
        return Err(Refusal::MessageSymbol);
    }
    let whole = match slip {
        Slip::ShortMessageTakenAsCut => false,
        Slip::CutMessageTakenAsWhole => delay > 0,
        _ => message.len() < delay,
    };
    let empty = message.is_empty() && slip != Slip::EmptyMessageAccepted;
    let words = if empty { Vec::new() } else { words_with(slip, code, symbols, whole) };
    let word = words.first().copied().ok_or(Refusal::NoReading)?;
    let copy = (code.originals()..code.words.len()).find(|&copy| code.original(copy) == word as usize);
    Ok(copy.filter(|_| slip == Slip::NextNamesACopy).map_or(word, |copy| copy as u8))
}

/// The words that begin such a message as a program with a slip finds them.
fn words_with(slip: Slip, code: &Code, symbols: &[u8], whole: bool) -> Vec<u8> {
    let mut code = code.clone();
    match slip {
        // The word is compared, and not what comes after it.
        Slip::NextByItsOwnSymbols => {
            let fits = |&word: &usize| {
                let word = &code.words[word];
                symbols.starts_with(word) || !whole && word.starts_with(symbols)
            };
            let words = (0..code.words.len()).filter(|&word| code.starts[word]);
            return words.filter(fits).map(|word| word as u8).collect();
        }
        Slip::FollowersIgnoredByNext => {
            code = without_copies(&code).0;
            code.rows.iter_mut().for_each(|row| row.fill(true));
        }
        Slip::MarksIgnoredByNext => {
            let originals = code.originals();
            code.starts[..originals].fill(true);
        }
        Slip::BansIgnoredByNext => code = without_copies(&code).0,
        _ => {}
    }
    first_words(&code, symbols, whole)
}

/// What a program with a slip in its classes does, if the slip shows. The table is one that a sheet gives.
fn by_other_classes(
    slip: Slip,
    table: &Table,
    classes: &Entries,
    text: &[u8],
    output: &mut [u8],
    buffers: &mut Buffers,
) -> Option<Result<usize, Refusal>> {
    let given = Classes::given(classes).is_some();
    let mut taken = *classes;
    match slip {
        Slip::TurkishWhateverTheClasses if given => taken = TURKISH.entries(),
        Slip::SymbolsAboveOneAsOne if given => {
            let letters = taken.iter_mut().filter(|entry| **entry < OTHER);
            letters.for_each(|entry| *entry = (*entry).min(1));
        }
        Slip::LetterFFTakenAsOther if given && classes.iter().filter(|&&entry| entry < OTHER).count() > 1 => {
            taken[0xFF] = OTHER
        }
        Slip::ClassesAbove16AsOther => taken.iter_mut().for_each(|entry| *entry = (*entry).min(OTHER)),
        Slip::ReservedLettersAsOther => RESERVED.iter().for_each(|&byte| taken[byte as usize] = OTHER),
        // A letter that the text does not have.
        Slip::ClassesWithoutLettersAccepted if *classes == [OTHER; 256] => {
            let free = (0..=255).find(|byte| !text.contains(byte) && !RESERVED.contains(byte))?;
            taken[free as usize] = 0;
        }
        Slip::LongTextBeforeClasses if text.len() > MAX_TEXT_BYTES => return Some(Err(Refusal::MessageLength)),
        Slip::ShortBufferBeforeClasses if !given && output.len() <= 2 * text.len() => {
            return Some(Err(Refusal::ShortBuffer))
        }
        _ => return None,
    }
    Some(Reference.split(table, &taken, text, output, buffers))
}

/// A class sheet as a program with a slip takes it in, written once more from its lines.
fn taken_with(slip: Slip, sheet: &[u8]) -> Result<Entries, Refusal> {
    let most = match slip {
        Slip::ClassSheetOneByteLonger => 4_097,
        Slip::ClassSheetOneByteShorter => 4_095,
        _ => 4_096,
    };
    if sheet.len() > most || sheet.is_empty() && slip != Slip::EmptyClassSheetAccepted {
        return Err(Refusal::SheetLength);
    }
    let mut text = String::from_utf8_lossy(sheet).into_owned();
    match slip {
        Slip::LowerCaseAccepted => text.make_ascii_uppercase(),
        Slip::LineFeedAccepted => text = text.replace("\r\n", "\n").replace('\n', "\r\n"),
        Slip::BlankLineAtTheEndAccepted if text.ends_with("\r\n\r\n") => text.truncate(text.len() - 2),
        _ => {}
    }
    let mut lines: Vec<&str> = text.strip_suffix("\r\n").unwrap_or(&text).split("\r\n").collect();
    if sheet.is_empty() || slip == Slip::LastRecordWithoutLineEndLost && lines.len() > 1 && !text.ends_with("\r\n") {
        lines.pop();
    }
    let records: Option<Vec<[u8; 3]>> = lines.iter().map(|line| record_with(slip, line)).collect();
    let malformed = records.is_none();
    // Of a sheet with a malformed record the others are tested too.
    let mut records = records.unwrap_or_else(|| lines.iter().filter_map(|line| record_with(slip, line)).collect());
    let reserved = records.iter().any(|&[lowest, highest, _]| takes_in_reserved(slip, lowest, highest));
    let mut upside_down = records.iter().any(|[lowest, highest, _]| lowest > highest);
    if slip == Slip::UpsideDownTurned {
        records.iter_mut().for_each(|record| record[..2].sort());
        upside_down = false;
    }
    let wrong = (malformed || reserved, Refusal::ClassRecord);
    let upside_down = (upside_down && slip != Slip::UpsideDownIgnored, Refusal::ClassRange);
    let twice = (overlaps_with(slip, &records), Refusal::ClassOverlap);
    let tests = match slip {
        Slip::RangeBeforeRecord => [upside_down, wrong, twice],
        Slip::OverlapBeforeRange => [wrong, twice, upside_down],
        _ => [wrong, upside_down, twice],
    };
    if let Some((_, refusal)) = tests.into_iter().find(|(holds, _)| *holds) {
        return Err(refusal);
    }
    let mut entries = [if slip == Slip::OthersAsVowels { 0 } else { OTHER }; 256];
    for [lowest, highest, symbol] in records {
        for byte in lowest..=highest {
            let left_out = match slip {
                Slip::RangeWithoutItsLastByte => byte == highest && lowest < highest,
                Slip::LastByteOfAllLeftOut => byte == 255,
                _ => false,
            };
            if !left_out {
                entries[byte as usize] = if slip == Slip::SymbolsUpToNine { symbol.min(9) } else { symbol };
            }
        }
    }
    Ok(entries)
}

/// The numbers of a line, if it is a record.
fn record_with(slip: Slip, line: &str) -> Option<[u8; 3]> {
    let mut fields: Vec<&str> = line.split(',').collect();
    if slip == Slip::FourthFieldIgnored {
        fields.truncate(3);
    }
    let [lowest, highest, symbol] = fields[..] else { return None };
    let number = |field: &str, digits: usize| {
        let fits = match slip {
            Slip::OneDigitAccepted => (1..=digits).contains(&field.len()),
            Slip::LongDigitsAccepted => field.len() >= digits,
            _ => field.len() == digits,
        };
        let are_digits = field.bytes().all(|byte| b"0123456789ABCDEF".contains(&byte));
        let number = u64::from_str_radix(field, 16).ok().filter(|&number| number < 1 << (4 * digits));
        number.filter(|_| fits && are_digits).map(|number| number as u8)
    };
    Some([number(lowest, 2)?, number(highest, 2)?, number(symbol, 1)?])
}

fn takes_in_reserved(slip: Slip, lowest: u8, highest: u8) -> bool {
    let is_end = |byte: &u8| [lowest, highest].contains(byte) && lowest <= highest;
    RESERVED.iter().any(|byte| match slip {
        Slip::ReservedAtTheEndsOnly => is_end(byte),
        Slip::BracketsInsideARangeAccepted if *byte != DOT => is_end(byte),
        Slip::OneBracketForgotten if *byte == b']' => false,
        Slip::ReservedInUpsideDownRange => (lowest.min(highest)..=lowest.max(highest)).contains(byte),
        _ => (lowest..=highest).contains(byte),
    })
}

/// Is a byte in two records?
fn overlaps_with(slip: Slip, records: &[[u8; 3]]) -> bool {
    let mut records = records.to_vec();
    match slip {
        Slip::LastRecordWins => return false,
        Slip::SameRecordTwiceAccepted => {
            records.sort();
            records.dedup();
        }
        _ => {}
    }
    let mut taking = vec![Vec::new(); 256];
    for [lowest, highest, symbol] in records {
        (lowest..=highest).for_each(|byte| taking[byte as usize].push(symbol));
    }
    let twice = taking.iter().filter(|symbols| match slip {
        Slip::OverlapOfSameSymbolAccepted => symbols.iter().any(|&symbol| symbol != symbols[0]),
        _ => symbols.len() > 1,
    });
    twice.count() > usize::from(slip == Slip::OverlapByOneByteAccepted)
}

/// A text as a program with a slip splits it, written once more from where its words stand.
fn split_with(slip: Slip, code: &Code, classes: &Classes, text: &[u8]) -> Vec<u8> {
    let mut output = Vec::new();
    let mut end = 0;
    let copy = |output: &mut Vec<u8>, others: &[u8]| {
        output.extend(others.iter().filter(|&&byte| slip != Slip::DotsOfTheTextLost || byte != DOT))
    };
    for Word { place, kind } in words(code, classes, text) {
        copy(&mut output, &text[end..place.start]);
        end = place.end;
        if slip == Slip::LastWordLost && end == text.len() {
            continue;
        }
        let letters = &text[place];
        let kind = match kind {
            Kind::Several if slip == Slip::SeveralSplitByTheFirst => first_split(code, classes, letters),
            kind => kind,
        };
        let (round, square) = (*b"()", *b"[]");
        let (none, several) = if slip == Slip::BracketsExchanged { (square, round) } else { (round, square) };
        match kind {
            Kind::None => output.extend([&none[..1], letters, &none[1..]].concat()),
            Kind::Several => output.extend([&several[..1], letters, &several[1..]].concat()),
            Kind::Split(lengths) => {
                let mut letters = letters.iter();
                for (number, length) in lengths.into_iter().enumerate() {
                    let dot = number > 0 || slip == Slip::DotBeforeFirstSyllable;
                    output.extend(dot.then_some(DOT));
                    output.extend(letters.by_ref().take(length));
                }
            }
        }
    }
    copy(&mut output, &text[end..]);
    output
}

/// The first reading of an ambiguous word as its kind.
fn first_split(code: &Code, classes: &Classes, letters: &[u8]) -> Kind {
    let message: Vec<u8> = letters.iter().filter_map(|&letter| classes.symbol(letter)).collect();
    let Some(Readings::Two(first, _)) = first_two(code, &message) else { unreachable!("an ambiguous word") };
    Kind::Split(first.iter().map(|&word| code.words[word as usize].len()).collect())
}

/// The fields of each record of a sheet that is not refused 2.
fn fields(sheet: &[u8]) -> Vec<Vec<String>> {
    let text = String::from_utf8_lossy(sheet);
    let records = text.strip_suffix("\r\n").unwrap_or(&text).split("\r\n");
    records.map(|record| record.split(',').map(str::to_string).collect()).collect()
}

/// The sheet with a start field 1 in each record that has one field less than with start fields.
fn filled_up(sheet: &[u8]) -> Vec<u8> {
    let mut records = fields(sheet);
    let count = records.len();
    for record in records.iter_mut().filter(|record| record.len() == count + 1) {
        record.insert(1, "1".to_string());
    }
    let lines: Vec<String> = records.iter().map(|record| record.join(",")).collect();
    lines.join("\r\n").into_bytes()
}

/// Is a start field wrong, whatever the row entries are? Not for sheets refused below 7.
fn start_field_is_wrong(sheet: &[u8]) -> bool {
    let records = fields(sheet);
    records.iter().any(|record| record.len() == records.len() + 2 && !["0", "1"].contains(&record[1].as_str()))
}

/// The list with no zero at the start of a longer number.
fn without_leading_zeros(list: &[u8]) -> Vec<u8> {
    let ends_field = |at: usize| list.get(at).is_none_or(|byte| b",\r\n".contains(byte));
    let starts_field = |at: usize| at == 0 || b",\n".contains(&list[at - 1]);
    let leads = |at: usize| list[at] == b'0' && starts_field(at) && !ends_field(at + 1);
    (0..list.len()).filter(|&at| !leads(at)).map(|at| list[at]).collect()
}

/// The list without the bans that have Y equal to Z.
fn without_equal_y_and_z(list: &[u8]) -> Vec<u8> {
    let sound = |fields: &&Vec<String>| fields.len() != 3 || fields[1] != fields[2];
    let lines: Vec<String> = fields(list).iter().filter(sound).map(|fields| fields.join(",")).collect();
    lines.join("\r\n").into_bytes()
}

/// A copy for every ban, also where bans name the same two words. What the further copies would hold is left out.
fn enlarged_by_ban(table: &Table, list: &[u8]) -> (Option<Refusal>, Table) {
    let mut bans = bans::take_in(list, table.count).expect("an accepted list");
    bans.sort();
    bans.dedup();
    let (refusal, mut enlarged) = Reference.enlarge(table, list);
    if table.count + bans.len() > Code::MAX_WORDS {
        return (Some(Refusal::BanLimit), Table::BLANK);
    }
    enlarged.count = table.count + bans.len();
    (refusal, enlarged)
}

/// An enlarged table with a slip in its copies.
fn wrong_copies(slip: Slip, table: &Table, enlarged: &mut Table) {
    let (words, count) = (table.count, enlarged.count);
    let origins = enlarged.origins;
    for copy in words..count {
        let (word, behind) = (enlarged.origins[copy] as usize, enlarged.behind[copy] as usize);
        match slip {
            Slip::WordStaysAfterY => enlarged.rows[word].entries[behind] = table.rows[word].entries[behind],
            Slip::CopyAfterYOnly => {
                let copies = (words..count).filter(|&other| origins[other] as usize == behind);
                copies.for_each(|other| enlarged.rows[copy].entries[other] = 0);
            }
            Slip::CopyMayBegin => enlarged.starts[copy] = enlarged.starts[word],
            Slip::FollowerNotAsItsCopy => {
                let copies = origins.iter().enumerate().take(count).skip(words);
                for (other, &original) in copies {
                    let entry = std::mem::take(&mut enlarged.rows[other].entries[copy]);
                    enlarged.rows[original as usize].entries[copy] |= entry;
                }
            }
            // The banned word is kept from following the word and not the copy.
            Slip::BanOnlyAfterWord => {
                for row in &mut enlarged.rows {
                    let (after_word, after_copy) = (row.entries[word], row.entries[copy]);
                    row.entries[word] = after_copy;
                    row.entries[copy] = after_word;
                }
            }
            _ => {}
        }
    }
    if slip == Slip::CopiesByNumber && count > words + 1 {
        let (code, mut bans) = without_copies(&enlarged.code().expect("an enlarged code"));
        bans.sort_by_key(|ban| (ban.z, ban.y));
        *enlarged = Table::of(&enlarge(&code, &bans).expect("as many copies as before"));
    }
}

/// The table of the originals without bans, if it has copies.
fn without_bans(table: &Table) -> Option<Table> {
    table.code().filter(|code| !code.copies.is_empty()).map(|code| Table::of(&without_copies(&code).0))
}

/// The table with its copies taken for words, if it has copies.
fn named_as_words(table: &Table) -> Option<Table> {
    let code = table.code().filter(|code| !code.copies.is_empty())?;
    Some(Table::of(&Code { copies: Vec::new(), ..code }))
}

/// The table with a ban after each copy that has none, if a list gives it then.
fn without_idle_copies(table: &Table) -> Option<Table> {
    let mut mended = table.clone();
    for copy in mended.originals..mended.count.min(Code::MAX_WORDS) {
        let mut entries = mended.rows.iter_mut().map(|row| &mut row.entries[copy]).filter(|entry| **entry == 1);
        entries.next().into_iter().for_each(|entry| *entry = 0);
        if mended.code().is_some() {
            return Some(mended);
        }
        mended = table.clone();
    }
    None
}

/// The table with each copy given the symbols of its word, if a list gives it then.
fn with_the_words_copied(table: &Table) -> Option<Table> {
    let mut mended = table.clone();
    for copy in mended.originals..mended.count.min(Code::MAX_WORDS) {
        mended.words[copy] = *mended.words.get(mended.origins[copy] as usize)?;
    }
    mended.code().map(|code| Table::of(&code))
}

/// What stands for a word after the word before it.
fn standing(table: &Table, word: u8, last: Option<u8>) -> u8 {
    let copies = table.originals..table.count;
    let fits = |&copy: &usize| table.origins[copy] == word && Some(table.behind[copy]) == last;
    copies.into_iter().find(fits).map_or(word, |copy| copy as u8)
}

/// The lengths of the readings.
fn lengths(answer: Result<ReadingLengths, Refusal>) -> [usize; 2] {
    match answer {
        Ok(ReadingLengths::One(only)) => [only, 0],
        Ok(ReadingLengths::Two(first, second)) => [first, second],
        Err(_) => [0, 0],
    }
}

/// Writes the readings with other numbers, which are told from each word and the word before it.
fn rename(buffers: &mut Buffers, lengths: [usize; 2], name: impl Fn(u8, Option<u8>) -> u8) {
    for (buffer, length) in [&mut buffers.first, &mut buffers.second].into_iter().zip(lengths) {
        let words = buffer[..length].to_vec();
        let named = (0..length).map(|at| name(words[at], at.checked_sub(1).map(|before| words[before])));
        buffer[..length].copy_from_slice(&named.collect::<Vec<_>>());
    }
}

/// The table with every original word allowed to begin, if it is one that a sheet gives, alone or with a list.
fn without_marks(table: &Table) -> Table {
    let originals = |code: &Code| (0..code.words.len()).map(|word| word < code.originals()).collect();
    let every_word = |code: Code| Table::of(&Code { starts: originals(&code), ..code });
    table.code().map_or_else(|| table.clone(), every_word)
}

/// The table with marks that a sheet may give: every other mark of a word taken for 1, and none past the count.
fn with_mended_marks(table: &Table) -> Table {
    let starts = std::array::from_fn(|word| u8::from(word < table.count && table.starts[word] != 0));
    Table { starts, ..table.clone() }
}

/// What the pair procedure gives from these first pairs. Where it rightly says
/// ambiguous, the right message and readings are left.
fn by_first_pairs(code: &Code, right: VerdictLengths, first: impl Fn(usize, usize) -> bool) -> VerdictLengths {
    let compete = (0..code.words.len()).any(|x| (0..x).any(|y| first(y, x)));
    let graph = walk(code, first);
    match (graph.ambiguous_message(), graph.longest_path()) {
        (Some(_), _) if matches!(right, VerdictLengths::Ambiguous { .. }) => right,
        (Some(message), _) => VerdictLengths::Ambiguous { message: message.len(), first: 1, second: 1 },
        (None, None) => VerdictLengths::Unbounded,
        (None, Some(_)) if !compete => VerdictLengths::Delay(0),
        (None, Some(steps)) => VerdictLengths::Delay(steps + 1),
    }
}

/// The symbols of the word that every message begins with, if a single word begins.
fn opening(code: &Code) -> usize {
    let beginning: Vec<usize> = (0..code.words.len()).filter(|&word| code.starts[word]).collect();
    if let [only] = beginning[..] {
        code.words[only].len()
    } else {
        0
    }
}

/// Leaves out the first entries of a list in a buffer and gives its new length. What it no longer takes is as before.
fn left_out(buffer: &mut [u8], before: &[u8], entries: usize, length: usize) -> usize {
    buffer.copy_within(entries..length, 0);
    buffer[length - entries..length].copy_from_slice(&before[length - entries..length]);
    length - entries
}

#[test]
fn without_a_slip_nothing_differs() {
    assert!(compare(&mut Wrong(Slip::None), 1, 10_000).is_ok());
}

/// Each slip shows in its operation.
#[test]
fn slips_are_caught() {
    let slips = [
        ("sheet", Slip::TableOfRefusedSheet),
        ("sheet", Slip::StartFieldsDemanded),
        ("sheet", Slip::MixedFieldsAccepted),
        ("sheet", Slip::StartFieldBeforeRowEntry),
        ("sheet", Slip::MarkFromRowEntry),
        ("built-in code", Slip::BuiltInEntry),
        ("enlarging", Slip::TableOfRefusedList),
        ("enlarging", Slip::LeadingZeroAccepted),
        ("enlarging", Slip::LastBlankLineAccepted),
        ("enlarging", Slip::EqualYAndZAccepted),
        ("enlarging", Slip::ListOneByteLonger),
        ("enlarging", Slip::LimitBeforeBans),
        ("enlarging", Slip::CodeWithCopiesEnlarged),
        ("enlarging", Slip::WordStaysAfterY),
        ("enlarging", Slip::CopyAfterYOnly),
        ("enlarging", Slip::CopyPerBan),
        ("enlarging", Slip::CopyMayBegin),
        ("enlarging", Slip::CopiesByNumber),
        ("enlarging", Slip::FollowerNotAsItsCopy),
        ("enlarging", Slip::BanOnlyAfterWord),
        ("class sheet", Slip::ClassesOfRefusedSheet),
        ("class sheet", Slip::RangeWithoutItsLastByte),
        ("class sheet", Slip::LastByteOfAllLeftOut),
        ("class sheet", Slip::OthersAsVowels),
        ("class sheet", Slip::SymbolsUpToNine),
        ("class sheet", Slip::LowerCaseAccepted),
        ("class sheet", Slip::LineFeedAccepted),
        ("class sheet", Slip::BlankLineAtTheEndAccepted),
        ("class sheet", Slip::LastRecordWithoutLineEndLost),
        ("class sheet", Slip::FourthFieldIgnored),
        ("class sheet", Slip::OneDigitAccepted),
        ("class sheet", Slip::LongDigitsAccepted),
        ("class sheet", Slip::ReservedAtTheEndsOnly),
        ("class sheet", Slip::BracketsInsideARangeAccepted),
        ("class sheet", Slip::OneBracketForgotten),
        ("class sheet", Slip::ReservedInUpsideDownRange),
        ("class sheet", Slip::RangeBeforeRecord),
        ("class sheet", Slip::OverlapBeforeRange),
        ("class sheet", Slip::UpsideDownTurned),
        ("class sheet", Slip::UpsideDownIgnored),
        ("class sheet", Slip::OverlapByOneByteAccepted),
        ("class sheet", Slip::SameRecordTwiceAccepted),
        ("class sheet", Slip::OverlapOfSameSymbolAccepted),
        ("class sheet", Slip::LastRecordWins),
        ("class sheet", Slip::EmptyClassSheetAccepted),
        ("class sheet", Slip::ClassSheetOneByteLonger),
        ("class sheet", Slip::ClassSheetOneByteShorter),
        ("built-in classes", Slip::CapitalTakenAsOther),
        ("built-in classes", Slip::AccentTakenAsLetter),
        ("encoding", Slip::CopyWithoutBanAccepted),
        ("encoding", Slip::CopyOfAnotherWordAccepted),
        ("encoding", Slip::CopyNumbersEncoded),
        ("encoding", Slip::BannedThreeEncoded),
        ("encoding", Slip::TableNotChecked),
        ("encoding", Slip::MarksNotChecked),
        ("encoding", Slip::MessageOneLonger),
        ("encoding", Slip::MarksIgnoredByEncoding),
        ("reading", Slip::WorkingBufferLeft),
        ("reading", Slip::SecondReadingWritten),
        ("reading", Slip::ReadingsExchanged),
        ("reading", Slip::MarksIgnoredByReading),
        ("reading", Slip::ReadingsNameCopies),
        ("reading", Slip::OrderByCopies),
        ("reading", Slip::BansIgnoredByReading),
        ("splitting", Slip::DotBeforeFirstSyllable),
        ("splitting", Slip::BracketsExchanged),
        ("splitting", Slip::SeveralSplitByTheFirst),
        ("splitting", Slip::LastWordLost),
        ("splitting", Slip::DotsOfTheTextLost),
        ("splitting", Slip::TurkishWhateverTheClasses),
        ("splitting", Slip::SymbolsAboveOneAsOne),
        ("splitting", Slip::LetterFFTakenAsOther),
        ("splitting", Slip::ClassesAbove16AsOther),
        ("splitting", Slip::ReservedLettersAsOther),
        ("splitting", Slip::ClassesWithoutLettersAccepted),
        ("splitting", Slip::LongTextBeforeClasses),
        ("splitting", Slip::ShortBufferBeforeClasses),
        ("splitting", Slip::MarksIgnoredBySplitting),
        ("splitting", Slip::BansIgnoredBySplitting),
        ("splitting", Slip::MessageLeftBySplitting),
        ("splitting", Slip::ReadingLeftBySplitting),
        ("splitting", Slip::WorkingBufferLeftBySplitting),
        ("splitting", Slip::ClearedAsFarAsTheText),
        ("splitting", Slip::OutputOneLonger),
        ("splitting", Slip::ClearedBeforeRefusal),
        ("splitting", Slip::TextOneByteLonger),
        ("splitting", Slip::ShortBufferBeforeLongText),
        ("splitting", Slip::LongTextBeforeTable),
        ("splitting", Slip::OutputAsLongAsWritten),
        ("verdict", Slip::DelayOneLess),
        ("verdict", Slip::WorkingBufferLeftByVerdict),
        ("verdict", Slip::MarksIgnoredByVerdict),
        ("verdict", Slip::BansIgnoredByVerdict),
        ("verdict", Slip::VerdictNamesCopies),
        ("verdict", Slip::UnreachedWordsGivePairs),
        ("verdict", Slip::OnlyBeginningWordsGivePairs),
        ("verdict", Slip::OpeningLeftOut),
        ("verdict", Slip::OpeningCounted),
        ("verdict", Slip::DelayWithoutRivals),
        ("next word", Slip::NextByOneSymbolLess),
        ("next word", Slip::NextByOneSymbolMore),
        ("next word", Slip::ShortMessageTakenAsCut),
        ("next word", Slip::CutMessageTakenAsWhole),
        ("next word", Slip::NextByItsOwnSymbols),
        ("next word", Slip::FollowersIgnoredByNext),
        ("next word", Slip::MarksIgnoredByNext),
        ("next word", Slip::BansIgnoredByNext),
        ("next word", Slip::NextNamesACopy),
        ("next word", Slip::NoNextWordWithoutSymbols),
        ("next word", Slip::ZeroDelayTakenAsNone),
        ("next word", Slip::EmptyMessageAccepted),
        ("next word", Slip::UnboundedTakenAsWhole),
        ("next word", Slip::AmbiguousTakenAsWhole),
        ("next word", Slip::SymbolsBehindTheDelayTested),
        ("next word", Slip::SymbolBeforeNoFiniteDelay),
        ("next word", Slip::EmptyMessageBeforeNoFiniteDelay),
        ("next word", Slip::NoNextWordBeforeSymbol),
        ("next word", Slip::LongMessageBeforeTable),
        ("next word", Slip::ShortBufferBeforeTable),
        ("next word", Slip::LongMessageCutToTheDelay),
        ("next word", Slip::NextMessageOneLonger),
        ("next word", Slip::ShortBufferBeforeLongMessage),
        ("next word", Slip::NoFiniteDelayBeforeShortBuffer),
        ("next word", Slip::WorkingBufferAsForReading),
        ("next word", Slip::ClearedBeforeShortBuffer),
        ("next word", Slip::ClearedBeforeLongMessage),
        ("next word", Slip::WorkingBufferLeftWithoutNextWord),
        ("next word", Slip::WorkingBufferLeftByNoFiniteDelay),
        ("next word", Slip::WorkingBufferLeftBySymbol),
        ("next word", Slip::WorkingBufferLeftByNext),
    ];
    for (operation, slip) in slips {
        let difference = compare(&mut Wrong(slip), 1, 10_000).expect_err(&format!("{slip:?}"));
        println!("{slip:?}: {}", difference.chars().take(40).collect::<String>());
        assert!(difference.contains(&format!(": {operation} of")), "{slip:?}: {difference}");
    }
}
