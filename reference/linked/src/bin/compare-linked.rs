//! Holds the proved library against the reference on generated inputs:
//! `compare-linked [START [ROUNDS]]`. Any difference ends the run with a
//! failure.

use furlazon::{ANSWER_ENTRIES, CLASSES_BYTES, TABLE_BYTES};
use linked::image;
use linked::operations::Linked;
use reference::classes::Classes;
use reference::code::{Code, Refusal};
use reference::compare::{compare, on_list, on_table, Met, LINES};
use reference::operations::{Operations, Reference, VERDICT_ENTRIES, VERDICT_WORKING};
use reference::random::Random;
use reference::split::MAX_TEXT_BYTES;
use reference::table::Table;
use reference::{encode, generate};
use std::process::exit;
use std::time::Instant;

/// Rounds of a run where nothing else is said.
const ROUNDS: usize = 40_000;

fn main() {
    let numbers: Vec<Option<u64>> = std::env::args().skip(1).map(|text| text.parse().ok()).collect();
    let (start, rounds) = match numbers[..] {
        [] => (1, ROUNDS),
        [Some(start)] => (start, ROUNDS),
        [Some(start), Some(rounds)] => (start, rounds as usize),
        _ => {
            eprintln!("usage: compare-linked [START [ROUNDS]]");
            exit(2);
        }
    };
    println!("start {start}, {rounds} rounds");
    let clock = Instant::now();
    let met = compare(&mut Linked, start, rounds).unwrap_or_else(|difference| fail(&difference));
    println!("sheets, ban lists, class sheets, sequences, messages, texts and tables: {}", told(&met));
    let met = images(start, rounds).unwrap_or_else(|difference| fail(&difference));
    println!("damaged images: {}", told(&met));
    short_buffers(start, rounds).unwrap_or_else(|difference| fail(&difference));
    println!("short images, classes and answers: refused, nothing changed");
    // A round has a sheet, two class sheets, a ban list and four inputs for a table, a ban list and four inputs for a
    // damaged image, for each of both the messages whose next words are named, and seven inputs with short buffers.
    // What is built in has no input and is not counted.
    let inputs = (20 + 2 * LINES) * rounds;
    println!("all the same: {inputs} inputs in {} s, start {start}", clock.elapsed().as_secs());
}

fn fail<T>(difference: &str) -> T {
    println!("{difference}");
    exit(1)
}

/// What was met, in words.
fn told(met: &Met) -> String {
    let Met {
        accepted,
        built_in,
        enlarged,
        class_sheets,
        encoded,
        one_reading,
        two_readings,
        split,
        split_by_other_classes,
        words_split,
        words_without_reading,
        words_with_several,
        ambiguous,
        delayed,
        unbounded,
        next_words,
        next_words_at_once,
        next_words_without_reading,
        no_next_word,
        refused_classes,
        refused,
    } = met;
    let refused: Vec<String> = (1..refused.len()).map(|number| format!("{number}: {}", refused[number])).collect();
    format!(
        "{accepted} sheets, {enlarged} ban lists and {class_sheets} class sheets accepted, {built_in} times the built-in \
         code and classes, {encoded} encoded, {one_reading} with one reading, {two_readings} with more, {split} texts, \
         {split_by_other_classes} by other classes than the built-in ones, with {words_split} words split, \
         {words_without_reading} without a reading and {words_with_several} with several, {ambiguous} ambiguous, \
         {delayed} with a delay, {unbounded} without bound, {next_words} next words, {next_words_at_once} of them without \
         a symbol and {next_words_without_reading} of messages without a reading, and {no_next_word} times none; refused \
         {}; 8 for the classes alone: {refused_classes}",
        refused.join(", ")
    )
}

/// Images with some bytes changed at random, half of them of codes with
/// copies: mostly tables that no sheet gives, nor a sheet and a ban list.
fn images(start: u64, rounds: usize) -> Result<Met, String> {
    let mut random = Random(start);
    let mut met = Met::default();
    for round in 0..rounds {
        let code = if random.one_in(2) { generate::code(&mut random) } else { generate::enlarged_code(&mut random) };
        let mut image = image::pack(&Table::of(&code));
        for _ in 0..random.between(1, 3) {
            // Often among the last bytes, where the numbers of the copies stand.
            let last = if random.one_in(4) { COPIES_BYTES } else { TABLE_BYTES };
            let at = TABLE_BYTES - 1 - random.below(last);
            image[at] = *random.pick(&[0, 1, 1, 2, 15, 16, 17, 32, 255]);
        }
        let table = image::unpack(&image);
        let list = generate::list(&mut random, &code);
        on_list(&mut Linked, &mut met, &table, &list)
            .and_then(|()| on_table(&mut Linked, &mut random, &mut met, &code, &table))
            .map_err(|difference| format!("start {start}, image {round}: {difference}"))?;
    }
    Ok(met)
}

/// Bytes of an image that belong to the copies: their count, what each is a copy of, and after which word.
const COPIES_BYTES: usize = 1 + 2 * Code::MAX_WORDS;

/// An image, classes or an answer that are too short are refused with 13, unless
/// a lower number holds where that can be told, and nothing changes.
fn short_buffers(start: u64, rounds: usize) -> Result<(), String> {
    let mut random = Random(start);
    let mut work = Lent::new();
    for round in 0..rounds {
        let code = if random.one_in(2) { generate::code(&mut random) } else { generate::enlarged_code(&mut random) };
        let short_image = random.one_in(2);
        let image_length = if short_image { random.below(TABLE_BYTES) } else { TABLE_BYTES };
        let answer_length = if short_image { random.below(6) } else { random.below(ANSWER_ENTRIES) };
        let image = &image::pack(&Table::of(&code))[..image_length];
        if !work.all_refused(&mut random, &code, image, answer_length) {
            return Err(format!("start {start}, round {round}: image of {image_length}, answer of {answer_length}"));
        }
    }
    Ok(())
}

/// What a sheet is refused with where there is no room for what it gives: of
/// its own refusal and that of the short buffer the lower.
fn sheet_number(refused: Option<Refusal>) -> u64 {
    let short = Refusal::ShortBuffer;
    u64::from(refused.map_or(short, |refused| refused.min(short)).number())
}

/// What splitting is refused with where the image, the classes or the answer
/// are too short. The lengths of the image and of the classes come before all else.
fn text_number(image: &[u8], classes: &[u8], text: &[u8]) -> u64 {
    let refusal = match classes.try_into().ok().filter(|_| image.len() == TABLE_BYTES).map(Classes::given) {
        None => Refusal::ShortBuffer,
        Some(None) => Refusal::NotFromSheet,
        Some(_) if text.len() > MAX_TEXT_BYTES => Refusal::MessageLength,
        _ => Refusal::ShortBuffer,
    };
    u64::from(refusal.number())
}

/// What the next word is refused with where the image or the answer is too
/// short. The length of the image comes before all else.
fn line_number(image: &[u8], line: &[u8]) -> u64 {
    let too_long = image.len() == TABLE_BYTES && line.len() > Code::MAX_MESSAGE_SYMBOLS;
    let refusal = if too_long { Refusal::MessageLength } else { Refusal::ShortBuffer };
    u64::from(refusal.number())
}

/// What enlarging is refused with where there is no room for the image that it
/// would write. The length of the image that is read comes before all else.
fn list_number(image: &[u8], list: &[u8]) -> u64 {
    sheet_number(image.try_into().ok().and_then(|image| Reference.enlarge(&image::unpack(image), list).0))
}

/// Lent buffers that are long enough, all filled with a mark.
struct Lent {
    bytes: [Vec<u8>; 4],
    work: Vec<u64>,
    answer: Vec<u64>,
}

const MARK: u8 = 0x5A;

impl Lent {
    fn new() -> Lent {
        Lent {
            bytes: [(); 4].map(|()| vec![MARK; VERDICT_ENTRIES]),
            work: vec![u64::from(MARK); VERDICT_WORKING],
            answer: vec![u64::from(MARK); ANSWER_ENTRIES + 2],
        }
    }

    /// Calls each function with a short image or a short answer; splitting also with short classes.
    fn all_refused(&mut self, random: &mut Random, code: &Code, image: &[u8], answer: usize) -> bool {
        let sequence = generate::permitted_sequence(random, code, 10);
        let joined = encode::joined(code, &sequence);
        let line = generate::line(random, code, None);
        let sheet = if random.one_in(2) { generate::sheet(random) } else { generate::damaged_sheet(random) };
        let list = generate::list(random, code);
        let classes = generate::classes(random);
        let text = generate::text(random, code, &classes);
        let entries = generate::class_entries(random, &classes);
        let entries = &entries[..if random.one_in(2) { random.below(CLASSES_BYTES) } else { CLASSES_BYTES }];
        let class_sheet =
            if random.one_in(2) { generate::class_sheet(random) } else { generate::damaged_class_sheet(random) };
        let [message, first, second, out] = &mut self.bytes;
        let (work, answer) = (&mut self.work, &mut self.answer[..answer]);
        let short = u64::from(Refusal::ShortBuffer.number());
        let numbers = [
            furlazon::encode(image, &sequence, message, answer),
            furlazon::read(image, &joined, first, second, work, answer),
            furlazon::verdict(image, message, first, second, work, answer),
        ];
        let split = furlazon::split(image, entries, &text, out, message, first, second, work, answer);
        let split = split == text_number(image, entries, &text);
        let next = furlazon::next(image, &line, work, answer) == line_number(image, &line);
        let taken = image.len() == TABLE_BYTES
            || furlazon::take_in(&sheet, &mut message[..image.len()]) == sheet_number(Reference.take_in(&sheet).0);
        let room = random.below(TABLE_BYTES);
        let enlarged = furlazon::enlarge(image, &list, &mut message[..room]) == list_number(image, &list);
        let room_for_classes = random.below(CLASSES_BYTES);
        let classes_taken = furlazon::take_classes(&class_sheet, &mut message[..room_for_classes]);
        let classes_taken = classes_taken == sheet_number(Reference.take_classes(&class_sheet).0);
        let given =
            [furlazon::turkish(&mut message[..room]), furlazon::turkish_classes(&mut message[..room_for_classes])];
        let answers = [split, next, taken, enlarged, classes_taken, numbers == [short; 3], given == [short; 2]];
        answers == [true; 7] && self.unchanged()
    }

    fn unchanged(&self) -> bool {
        let entries = self.work.iter().chain(&self.answer);
        self.bytes.iter().flatten().all(|&byte| byte == MARK)
            && entries.into_iter().all(|&entry| entry == u64::from(MARK))
    }
}
