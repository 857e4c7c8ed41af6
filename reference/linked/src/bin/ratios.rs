//! Times the proved library against plain Rust on the same inputs and prints
//! the ratios: `ratios [SHEETS [SECONDS]]`. Every call is timed by itself; lent
//! buffers are cleared before it, outside the time. A run is nine calls of each
//! side, in turn, and counts with its fastest call, so that a call which the
//! system interrupts does not count. The medians of the runs are printed, and
//! their quotient; for splitting also the bytes of the text in a second.

use furlazon::{split_out, ANSWER_ENTRIES, CLASSES_BYTES, TABLE_BYTES};
use linked::{image, plain};
use reference::cases::{largest_class_sheet, turkish_six_with_r, AMBIGUOUS_WORDS, SPLIT_WORDS, UNREAD_WORDS};
use reference::classes::{self, Classes};
use reference::code::Code;
use reference::encode::joined;
use reference::generate::{permitted_sequence, spelled};
use reference::letters::{bytes, with_r_apart, TURKISH};
use reference::operations::{Buffers, Operations, Reference, VERDICT_ENTRIES, VERDICT_WORKING};
use reference::random::Random;
use reference::sheet;
use reference::split::MAX_TEXT_BYTES;
use reference::table::Table;
use reference::turkish;
use reference::verdict::verdict;
use std::hint::black_box;
use std::path::{Path, PathBuf};
use std::time::{Duration, Instant};
use std::{env, fs};

fn main() {
    let mut arguments = env::args().skip(1);
    let sheets = PathBuf::from(arguments.next().unwrap_or_else(|| "sheets".to_string()));
    let seconds = arguments.next().and_then(|text| text.parse().ok()).unwrap_or(0.5);
    let bench = Bench { span: Duration::from_secs_f64(seconds) };
    println!("| Operation | Input | Plain Rust | Proved, µs | Plain, µs | Ratio |");
    println!("|---|---|---|---|---|---|");
    for name in ["turkish-six", "turkish-twelve", "largest-unbounded"] {
        bench.take_in(name, &read_file(&sheets, name, "csv"));
    }
    bench.turkish();
    bench.take_classes("Turkish letters", &classes::write(&TURKISH.runs()));
    bench.take_classes("every letter by itself", &largest_class_sheet());
    for name in ["bans-delay", "bans-32-words"] {
        bench.enlarge(name, &read_code(&sheets, name), &read_file(&sheets, name, "bans"));
    }
    for name in ["turkish-six", "largest-unbounded"] {
        let code = read_code(&sheets, name);
        for symbols in [20, Code::MAX_MESSAGE_SYMBOLS] {
            bench.encode(name, &code, symbols);
        }
    }
    for name in ["turkish-six", "turkish-twelve", "largest-unbounded"] {
        let code = read_code(&sheets, name);
        for symbols in [20, Code::MAX_MESSAGE_SYMBOLS] {
            bench.read(name, &code, symbols);
        }
    }
    let verdicts = [
        ("ambiguous", "code-t"),
        ("ambiguous", "turkish-twelve"),
        ("ambiguous", "largest-ambiguous"),
        ("delay", "code-u"),
        ("delay", "turkish-six"),
        ("delay", "largest-delay"),
        ("without bound", "unbounded"),
        ("without bound", "largest-unbounded"),
    ];
    for (kind, name) in verdicts {
        bench.verdict(kind, name, &read_code(&sheets, name));
    }
    for name in ["code-u", "turkish-six", "largest-delay"] {
        let code = read_code(&sheets, name);
        let delay = verdict(&code).delay().expect("a finite delay");
        for symbols in [delay, Code::MAX_MESSAGE_SYMBOLS] {
            bench.next(name, &code, &beginning_of(&code, symbols));
        }
    }
    println!();
    println!("| Split by | Text | Plain Rust | Proved, µs | Plain, µs | Ratio | Proved, MB/s | Plain, MB/s |");
    println!("|---|---|---|---|---|---|---|---|");
    let codes = [
        ("built-in code", turkish::code(), TURKISH.clone()),
        ("`turkish-six`", read_code(&sheets, "turkish-six"), TURKISH.clone()),
        ("six types, three classes", turkish_six_with_r(), with_r_apart()),
    ];
    for (name, code, classes) in codes {
        bench.split(name, "Turkish words", &code, &classes, &turkish_words());
        bench.split(name, "3000 short words", &code, &classes, &short_words(&code, &classes));
        bench.split(name, "one word", &code, &classes, &long_word(&code, &classes));
    }
}

fn read_file(sheets: &Path, name: &str, kind: &str) -> Vec<u8> {
    let path = sheets.join(name).with_extension(kind);
    fs::read(&path).unwrap_or_else(|error| panic!("{}: {error}", path.display()))
}

fn read_code(sheets: &Path, name: &str) -> Code {
    sheet::take_in(&read_file(sheets, name, "csv")).expect("an accepted sheet")
}

/// A permitted sequence whose message has this many symbols.
fn sequence_of(code: &Code, symbols: usize) -> Vec<u8> {
    let mut random = Random(1);
    loop {
        let mut sequence = permitted_sequence(&mut random, code, symbols);
        let mut length = joined(code, &sequence).len();
        while length > symbols {
            let word = sequence.pop().expect("a sequence with symbols");
            length -= code.words[word as usize].len();
        }
        if length == symbols {
            return sequence;
        }
    }
}

/// The first symbols of a message, so many; the last word may be cut.
fn beginning_of(code: &Code, symbols: usize) -> Vec<u8> {
    let mut random = Random(1);
    loop {
        let mut message = joined(code, &permitted_sequence(&mut random, code, symbols));
        if message.len() >= symbols {
            message.truncate(symbols);
            return message;
        }
    }
}

/// Words of Gönenç's paper over and over, as many as a text may have.
fn turkish_words() -> Vec<u8> {
    let words = [SPLIT_WORDS, AMBIGUOUS_WORDS, UNREAD_WORDS].join(" ").replace('·', "");
    let words: Vec<Vec<u8>> = words.split_whitespace().map(bytes).collect();
    let mut text = Vec::new();
    for word in words.iter().cycle() {
        if text.len() + word.len() + 1 > MAX_TEXT_BYTES {
            return text;
        }
        text.extend(word);
        text.push(b' ');
    }
    unreachable!("words over and over")
}

/// Three thousand words of up to four letters that the code reads.
fn short_words(code: &Code, classes: &Classes) -> Vec<u8> {
    let mut random = Random(1);
    let mut text = Vec::new();
    for _ in 0..3_000 {
        let message = loop {
            let message = joined(code, &permitted_sequence(&mut random, code, 2));
            if message.len() <= 4 {
                break message;
            }
        };
        text.extend(spelled(&mut random, classes, &message));
        text.push(b' ');
    }
    text
}

/// One word that is as long as a text may be.
fn long_word(code: &Code, classes: &Classes) -> Vec<u8> {
    spelled(&mut Random(1), classes, &joined(code, &sequence_of(code, MAX_TEXT_BYTES)))
}

fn cleared() -> Buffers {
    Buffers {
        message: vec![0; VERDICT_ENTRIES],
        first: vec![0; Code::MAX_MESSAGE_SYMBOLS],
        second: vec![0; Code::MAX_MESSAGE_SYMBOLS],
        working: vec![0; VERDICT_WORKING + 1],
    }
}

fn clear(buffers: &mut Buffers) {
    for buffer in [&mut buffers.message, &mut buffers.first, &mut buffers.second] {
        buffer.fill(0);
    }
    buffers.working.fill(0);
}

/// Buffers of a splitting, no longer than it needs.
fn splitting(text: &[u8]) -> (Vec<u8>, Buffers) {
    let mut buffers = Buffers { message: vec![0; text.len()], ..cleared() };
    cut(&mut buffers, text.len());
    (vec![0; split_out(text.len())], buffers)
}

/// Buffers of a reading, no longer than it needs.
fn cut(buffers: &mut Buffers, symbols: usize) {
    buffers.first.truncate(symbols);
    buffers.second.truncate(symbols);
    buffers.working.truncate(symbols + 1);
}

struct Bench {
    span: Duration,
}

impl Bench {
    fn take_in(&self, name: &str, sheet: &[u8]) {
        let mut table = [0; TABLE_BYTES];
        let proved = |timer: &mut Timer| {
            table.fill(0);
            timer.time(|| furlazon::take_in(black_box(sheet), &mut table));
        };
        let plain = |timer: &mut Timer| timer.time(|| Reference.take_in(black_box(sheet)));
        self.row("take in", &format!("`{name}`, {} bytes", sheet.len()), "reference", proved, plain);
    }

    fn turkish(&self) {
        let mut table = [0; TABLE_BYTES];
        let proved = |timer: &mut Timer| {
            table.fill(0);
            timer.time(|| furlazon::turkish(&mut table));
        };
        let plain = |timer: &mut Timer| timer.time(|| Reference.turkish());
        self.row("built-in code", "none", "reference", proved, plain);
    }

    fn take_classes(&self, name: &str, sheet: &[u8]) {
        let mut classes = [0; CLASSES_BYTES];
        let proved = |timer: &mut Timer| {
            classes.fill(0);
            timer.time(|| furlazon::take_classes(black_box(sheet), &mut classes));
        };
        let plain = |timer: &mut Timer| timer.time(|| Reference.take_classes(black_box(sheet)));
        self.row("take in classes", &format!("{name}, {} bytes", sheet.len()), "reference", proved, plain);
    }

    fn enlarge(&self, name: &str, code: &Code, list: &[u8]) {
        let table = Table::of(code);
        let packed = image::pack(&table);
        let mut enlarged = [0; TABLE_BYTES];
        let proved = |timer: &mut Timer| {
            enlarged.fill(0);
            timer.time(|| furlazon::enlarge(black_box(&packed), black_box(list), &mut enlarged));
        };
        let plain = |timer: &mut Timer| timer.time(|| Reference.enlarge(black_box(&table), black_box(list)));
        self.row("enlarge", &format!("`{name}`, {} bytes", list.len()), "reference", proved, plain);
    }

    fn encode(&self, name: &str, code: &Code, symbols: usize) {
        let sequence = sequence_of(code, symbols);
        let table = Table::of(code);
        let packed = image::pack(&table);
        let (mut message, mut other) = (vec![0; symbols], vec![0; symbols]);
        let mut answer = [0; ANSWER_ENTRIES];
        let proved = |timer: &mut Timer| {
            message.fill(0);
            timer.time(|| furlazon::encode(black_box(&packed), black_box(&sequence), &mut message, &mut answer));
        };
        let plain = |timer: &mut Timer| {
            other.fill(0);
            timer.time(|| Reference.encode(black_box(&table), black_box(&sequence), &mut other));
        };
        self.row("encode", &format!("`{name}`, {} words", sequence.len()), "reference", proved, plain);
    }

    fn read(&self, name: &str, code: &Code, symbols: usize) {
        let message = joined(code, &sequence_of(code, symbols));
        let table = Table::of(code);
        let packed = image::pack(&table);
        let (mut buffers, mut other) = (cleared(), cleared());
        cut(&mut buffers, message.len());
        cut(&mut other, message.len());
        let mut answer = [0; ANSWER_ENTRIES];
        let proved = |timer: &mut Timer| {
            clear(&mut buffers);
            let Buffers { first, second, working, .. } = &mut buffers;
            timer.time(|| furlazon::read(black_box(&packed), black_box(&message), first, second, working, &mut answer));
        };
        let plain = |timer: &mut Timer| {
            clear(&mut other);
            timer.time(|| Reference.read(black_box(&table), black_box(&message), &mut other));
        };
        self.row("read", &format!("`{name}`, {} symbols", message.len()), "reference", proved, plain);
    }

    fn verdict(&self, kind: &str, name: &str, code: &Code) {
        let table = Table::of(code);
        let packed = image::pack(&table);
        let (mut buffers, mut other) = (cleared(), cleared());
        buffers.working.truncate(VERDICT_WORKING);
        other.working.truncate(VERDICT_WORKING);
        let mut answer = [0; ANSWER_ENTRIES];
        let mut proved = |timer: &mut Timer| {
            clear(&mut buffers);
            let Buffers { message, first, second, working } = &mut buffers;
            timer.time(|| furlazon::verdict(black_box(&packed), message, first, second, working, &mut answer));
        };
        let simple = |timer: &mut Timer| {
            clear(&mut other);
            timer.time(|| plain::on_table(black_box(&table), &mut other));
        };
        self.row(&format!("verdict, {kind}"), &format!("`{name}`"), "hash set", &mut proved, simple);
        let reference = |timer: &mut Timer| {
            clear(&mut other);
            timer.time(|| Reference.verdict(black_box(&table), &mut other));
        };
        self.row(&format!("verdict, {kind}"), &format!("`{name}`"), "reference", &mut proved, reference);
    }

    /// On both sides the delay, worked out anew by every call, is most of the time: a row is that of the verdict and a little more.
    fn next(&self, name: &str, code: &Code, message: &[u8]) {
        let table = Table::of(code);
        let packed = image::pack(&table);
        let (mut working, mut other) = (vec![0; VERDICT_WORKING], vec![0; VERDICT_WORKING]);
        let mut answer = [0; ANSWER_ENTRIES];
        let mut proved = |timer: &mut Timer| {
            working.fill(0);
            timer.time(|| furlazon::next(black_box(&packed), black_box(message), &mut working, &mut answer));
        };
        let input = format!("`{name}`, {} symbols", message.len());
        let simple = |timer: &mut Timer| {
            other.fill(0);
            timer.time(|| plain::next_on_table(black_box(&table), black_box(message), &mut other));
        };
        self.row("next word", &input, "hash set", &mut proved, simple);
        let reference = |timer: &mut Timer| {
            other.fill(0);
            timer.time(|| Reference.next(black_box(&table), black_box(message), &mut other));
        };
        self.row("next word", &input, "reference", &mut proved, reference);
    }

    fn split(&self, name: &str, kind: &str, code: &Code, classes: &Classes, text: &[u8]) {
        let (table, classes) = (Table::of(code), classes.entries());
        let packed = image::pack(&table);
        let ((mut out, mut buffers), (mut other_out, mut other)) = (splitting(text), splitting(text));
        let mut answer = [0; ANSWER_ENTRIES];
        let proved = |timer: &mut Timer| {
            out.fill(0);
            clear(&mut buffers);
            let Buffers { message, first, second, working } = &mut buffers;
            let (packed, classes, text) = (black_box(&packed), black_box(&classes), black_box(text));
            timer.time(|| {
                furlazon::split(packed, classes, text, &mut out, message, first, second, working, &mut answer)
            });
        };
        let plain = |timer: &mut Timer| {
            other_out.fill(0);
            clear(&mut other);
            let (table, classes, text) = (black_box(&table), black_box(&classes), black_box(text));
            timer.time(|| Reference.split(table, classes, text, &mut other_out, &mut other));
        };
        let (ours, theirs) = self.medians(proved, plain);
        let (ratio, length) = (ours / theirs, text.len());
        // Bytes in a microsecond are megabytes in a second.
        let [our_rate, their_rate] = [ours, theirs].map(|time| length as f64 / time);
        print!("| {name} | {kind}, {length} bytes | reference | {ours:.2} | {theirs:.2} | {ratio:.2} ");
        println!("| {our_rate:.1} | {their_rate:.1} |");
    }

    /// Times both sides in turn and prints a row.
    fn row(
        &self,
        operation: &str,
        input: &str,
        side: &str,
        proved: impl FnMut(&mut Timer),
        plain: impl FnMut(&mut Timer),
    ) {
        let (ours, theirs) = self.medians(proved, plain);
        println!("| {operation} | {input} | {side} | {ours:.2} | {theirs:.2} | {:.2} |", ours / theirs);
    }

    /// Times both sides in turn. The medians in microseconds.
    fn medians(&self, mut proved: impl FnMut(&mut Timer), mut plain: impl FnMut(&mut Timer)) -> (f64, f64) {
        let (mut ours, mut theirs) = (Timer::default(), Timer::default());
        let start = Instant::now();
        while start.elapsed() < self.span || ours.runs.len() < RUNS {
            for _ in 0..CALLS {
                proved(&mut ours);
                plain(&mut theirs);
            }
            ours.end_run();
            theirs.end_run();
        }
        (ours.median(), theirs.median())
    }
}

/// Calls of a run, and the fewest runs of a row.
const CALLS: usize = 9;
const RUNS: usize = 15;

/// The times of the calls of a run, and of the runs before.
#[derive(Default)]
struct Timer {
    calls: Vec<Duration>,
    runs: Vec<Duration>,
}

impl Timer {
    fn time<T>(&mut self, call: impl FnOnce() -> T) {
        let start = Instant::now();
        black_box(call());
        self.calls.push(start.elapsed());
    }

    fn end_run(&mut self) {
        self.runs.extend(self.calls.drain(..).min());
    }

    /// The median of the runs in microseconds.
    fn median(mut self) -> f64 {
        self.runs.sort();
        self.runs[self.runs.len() / 2].as_secs_f64() * 1e6
    }
}
