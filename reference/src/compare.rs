//! Holds a program against the reference on generated inputs: every answer,
//! and every lent buffer afterwards.

use crate::classes::Classes;
use crate::code::{Code, Refusal};
use crate::generate;
use crate::letters::TURKISH;
use crate::operations::{next_by_delay, Operations, ReadingLengths, Reference, VerdictLengths};
use crate::random::Random;
use crate::split::{self, Kind};
use crate::table::Table;
use crate::{read, turkish, verdict};
use std::fmt::Debug;

/// How often each answer was met, so that a run shows what it covered.
#[derive(Clone, Default, PartialEq, Eq, Debug)]
pub struct Met {
    pub accepted: usize,
    pub built_in: usize,
    pub enlarged: usize,
    pub class_sheets: usize,
    pub encoded: usize,
    pub one_reading: usize,
    pub two_readings: usize,
    /// Texts, those of them that are split by other classes than the built-in ones, and the words in them by their kinds.
    pub split: usize,
    pub split_by_other_classes: usize,
    pub words_split: usize,
    pub words_without_reading: usize,
    pub words_with_several: usize,
    pub ambiguous: usize,
    pub delayed: usize,
    pub unbounded: usize,
    /// Next words that are named, those of them that need no symbol, and those of messages that have no reading; and how often there is none.
    pub next_words: usize,
    pub next_words_at_once: usize,
    pub next_words_without_reading: usize,
    pub no_next_word: usize,
    /// Texts that are refused for their classes alone.
    pub refused_classes: usize,
    /// By refusal number.
    pub refused: [usize; 22],
}

/// Compares on `rounds` rounds of generated inputs: what was met, or the first difference in words. Without a round nothing is compared, which is no success.
pub fn compare(subject: &mut impl Operations, start: u64, rounds: usize) -> Result<Met, String> {
    if rounds == 0 {
        return Err("no round, so nothing is compared".to_string());
    }
    let mut random = Random(start);
    let mut met = Met::default();
    for round in 0..rounds {
        one_round(subject, &mut random, &mut met)
            .map_err(|difference| format!("start {start}, round {round}: {difference}"))?;
    }
    Ok(met)
}

fn one_round(subject: &mut impl Operations, random: &mut Random, met: &mut Met) -> Result<(), String> {
    let sheet = if random.one_in(2) { generate::sheet(random) } else { generate::damaged_sheet(random) };
    let (refusal, table) = Reference.take_in(&sheet);
    same("sheet", &String::from_utf8_lossy(&sheet), &(refusal, table.clone()), &subject.take_in(&sheet))?;
    count(met, refusal, |met| met.accepted += 1);
    on_class_sheet(subject, met, &generate::class_sheet(random))?;
    on_class_sheet(subject, met, &generate::damaged_class_sheet(random))?;
    let code = match table.code() {
        Some(code) => code,
        // The rounds of refused sheets have room for another code.
        None if random.one_in(16) => built_in(subject, met)?,
        None => generate::code(random),
    };
    let code = enlarging(subject, random, met, code)?;
    let table = if random.one_in(4) { generate::damaged_table(random, &code) } else { Table::of(&code) };
    on_table(subject, random, met, &code, &table)
}

/// Compares the built-in classes and the built-in code, with which the round then goes on.
fn built_in(subject: &mut impl Operations, met: &mut Met) -> Result<Code, String> {
    let classes = (Reference.turkish_classes(), subject.turkish_classes());
    same("built-in classes", "the Turkish letters", &classes.0, &classes.1)?;
    same("built-in code", "the Turkish types", &Reference.turkish(), &subject.turkish())?;
    met.built_in += 1;
    Ok(turkish::code())
}

/// Compares taking in one class sheet.
pub fn on_class_sheet(subject: &mut impl Operations, met: &mut Met, sheet: &[u8]) -> Result<(), String> {
    let taken = Reference.take_classes(sheet);
    same("class sheet", &String::from_utf8_lossy(sheet), &taken, &subject.take_classes(sheet))?;
    count(met, taken.0, |met| met.class_sheets += 1);
    Ok(())
}

/// Compares enlarging, now and then of a table that is damaged or has copies
/// already. The enlarged code if there is one and else the code.
fn enlarging(subject: &mut impl Operations, random: &mut Random, met: &mut Met, code: Code) -> Result<Code, String> {
    let list = generate::list(random, &code);
    let table = match random.below(16) {
        0 => generate::damaged_table(random, &code),
        1 => Table::of(&generate::enlarged_code(random)),
        _ => Table::of(&code),
    };
    on_list(subject, met, &table, &list)?;
    let enlarged = Reference.enlarge(&Table::of(&code), &list).1;
    Ok(enlarged.code().unwrap_or(code))
}

/// Compares enlarging one table by one list.
pub fn on_list(subject: &mut impl Operations, met: &mut Met, table: &Table, list: &[u8]) -> Result<(), String> {
    let (refusal, enlarged) = Reference.enlarge(table, list);
    let input = (table, String::from_utf8_lossy(list));
    same("enlarging", &input, &(refusal, enlarged), &subject.enlarge(table, list))?;
    count(met, refusal, |met| met.enlarged += 1);
    Ok(())
}

/// Compares encoding, reading, splitting, the verdict and next words on one
/// table. The code, from which sequences, messages and texts are made, need not
/// be that of the table. The classes of splitting are generated.
pub fn on_table(
    subject: &mut impl Operations,
    random: &mut Random,
    met: &mut Met,
    code: &Code,
    table: &Table,
) -> Result<(), String> {
    encoding(subject, random, met, code, table)?;
    reading(subject, random, met, code, table)?;
    splitting(subject, random, met, code, table)?;
    let delay = verdict(subject, random, met, table)?;
    next_words(subject, random, met, code, table, delay)
}

fn encoding(
    subject: &mut impl Operations,
    random: &mut Random,
    met: &mut Met,
    code: &Code,
    table: &Table,
) -> Result<(), String> {
    let sequence = generate::sequence(random, code);
    let needed = sequence.iter().filter_map(|&word| code.words.get(word as usize)).map(Vec::len).sum();
    let mut expected = generate::buffer(random, needed);
    let mut actual = expected.clone();
    let answer = Reference.encode(table, &sequence, &mut expected);
    let answered = subject.encode(table, &sequence, &mut actual);
    same("encoding", &(table, &sequence), &(answer, expected), &(answered, actual))?;
    count(met, answer.err(), |met| met.encoded += 1);
    Ok(())
}

fn reading(
    subject: &mut impl Operations,
    random: &mut Random,
    met: &mut Met,
    code: &Code,
    table: &Table,
) -> Result<(), String> {
    let message = generate::message(random, code);
    let mut expected = generate::reading_buffers(random, &message);
    let mut actual = expected.clone();
    let answer = Reference.read(table, &message, &mut expected);
    let answered = subject.read(table, &message, &mut actual);
    same("reading", &(table, &message), &(answer, expected), &(answered, actual))?;
    count(met, answer.err(), |met| match answer {
        Ok(ReadingLengths::Two(..)) => met.two_readings += 1,
        _ => met.one_reading += 1,
    });
    Ok(())
}

fn splitting(
    subject: &mut impl Operations,
    random: &mut Random,
    met: &mut Met,
    code: &Code,
    table: &Table,
) -> Result<(), String> {
    let classes = generate::classes(random);
    let entries = generate::class_entries(random, &classes);
    let text = generate::text(random, code, &classes);
    let mut expected = generate::splitting_buffers(random, &text);
    let mut actual = expected.clone();
    let answer = Reference.split(table, &entries, &text, &mut expected.0, &mut expected.1);
    let answered = subject.split(table, &entries, &text, &mut actual.0, &mut actual.1);
    same("splitting", &(table, &entries, &text), &(answer, expected), &(answered, actual))?;
    let given = Classes::given(&entries);
    met.refused_classes += usize::from(given.is_none() && table.code().is_some());
    count(met, answer.err(), |met| {
        let code = table.code().expect("a table that is not refused");
        let classes = given.expect("classes that are not refused");
        met.split += 1;
        met.split_by_other_classes += usize::from(classes != *TURKISH);
        for word in split::words(&code, &classes, &text) {
            match word.kind {
                Kind::Split(_) => met.words_split += 1,
                Kind::None => met.words_without_reading += 1,
                Kind::Several => met.words_with_several += 1,
            }
        }
    });
    Ok(())
}

/// Compares the verdict. The delay of the table, if it has one.
fn verdict(
    subject: &mut impl Operations,
    random: &mut Random,
    met: &mut Met,
    table: &Table,
) -> Result<Option<usize>, String> {
    let mut expected = generate::verdict_buffers(random);
    let mut actual = expected.clone();
    let answer = Reference.verdict(table, &mut expected);
    let answered = subject.verdict(table, &mut actual);
    same("verdict", table, &(answer, expected), &(answered, actual))?;
    count(met, answer.err(), |met| match answer {
        Ok(VerdictLengths::Ambiguous { .. }) => met.ambiguous += 1,
        Ok(VerdictLengths::Delay(_)) => met.delayed += 1,
        _ => met.unbounded += 1,
    });
    Ok(match answer {
        Ok(VerdictLengths::Delay(delay)) => Some(delay),
        // Only the buffers were too short.
        Err(Refusal::ShortBuffer) => table.code().and_then(|code| verdict::verdict(&code).delay()),
        _ => None,
    })
}

/// Messages of which the next word is named, for each table.
pub const LINES: usize = 3;

/// Compares next words. The delay is that of the table, so that the reference need not work it out for every message.
fn next_words(
    subject: &mut impl Operations,
    random: &mut Random,
    met: &mut Met,
    code: &Code,
    table: &Table,
    delay: Option<usize>,
) -> Result<(), String> {
    let not_given = table.code().is_none();
    for _ in 0..LINES {
        let message = generate::line(random, code, delay);
        let refused = not_given || message.len() > Code::MAX_MESSAGE_SYMBOLS;
        let mut expected = generate::next_working(random, refused);
        let mut actual = expected.clone();
        let answer = next_by_delay(table, &message, &mut expected, |_| delay);
        let answered = subject.next(table, &message, &mut actual);
        same("next word", &(table, &message), &(answer, expected), &(answered, actual))?;
        met.no_next_word += usize::from(answer == Err(Refusal::NoReading));
        count(met, answer.err(), |met| {
            let code = table.code().expect("a table that is not refused");
            met.next_words += 1;
            met.next_words_at_once += usize::from(delay == Some(0));
            met.next_words_without_reading += usize::from(read::first_two(&code, &message).is_none());
        });
    }
    Ok(())
}

fn count(met: &mut Met, refusal: Option<Refusal>, answered: impl FnOnce(&mut Met)) {
    match refusal {
        Some(refusal) => met.refused[refusal.number() as usize] += 1,
        None => answered(met),
    }
}

fn same<T: PartialEq + Debug>(
    operation: &str,
    input: &(impl Debug + ?Sized),
    expected: &T,
    actual: &T,
) -> Result<(), String> {
    if expected == actual {
        return Ok(());
    }
    Err(format!("{operation} of {input:?}\nexpected {expected:?}\nbut met {actual:?}"))
}
