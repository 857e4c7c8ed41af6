//! Code U from a sheet in memory: its verdict, the only reading of a message,
//! the message again from the reading, a sequence that is refused, the empty
//! message, and the words of a line that comes in symbol by symbol. Then the
//! same code with a ban on 0 after 01 and 10: its verdict, and what the ban
//! forbids. Then the built-in code of the twelve Turkish types: its verdict,
//! with the message and both readings, why it names no next word, and words
//! that it splits. Last a class sheet that tells r from the other consonants,
//! words split by it, and a class sheet that is refused. Prints what
//! `operations.c` prints.

use furlazon::{
    read_entries, read_work, split_entries, split_out, split_work, ANSWER_ENTRIES, CLASSES_BYTES,
    REFUSED_CLASS_OVERLAP, REFUSED_FORBIDDEN_PAIR, REFUSED_NO_FINITE_DELAY, REFUSED_NO_READING, TABLE_BYTES,
    VERDICT_ENTRIES, VERDICT_WORK, WORD_SYMBOLS,
};

fn main() {
    let sheet = b"0,1,1,0,0\r\n10,1,1,1,1\r\n01,1,1,0,0\r\n101,1,1,1,1\r\n";
    let mut table = [0; TABLE_BYTES];
    assert_eq!(furlazon::take_in(sheet, &mut table), 0);

    let mut answer = [0; ANSWER_ENTRIES];
    let [mut message, mut first, mut second] = [(); 3].map(|()| vec![0; VERDICT_ENTRIES]);
    let mut work = vec![0; VERDICT_WORK];
    let refused = furlazon::verdict(&table, &mut message, &mut first, &mut second, &mut work, &mut answer);
    println!("verdict: refusal {refused}, answer {answer:?}");
    let delay = answer[1] as usize;

    // No more of the buffers than reading a message of five symbols needs.
    let symbols = [0, 1, 1, 0, 1];
    let refused = furlazon::read(
        &table,
        &symbols,
        &mut first[..read_entries(symbols.len())],
        &mut second[..read_entries(symbols.len())],
        &mut work[..read_work(symbols.len())],
        &mut answer,
    );
    let reading = first[..answer[1] as usize].to_vec();
    println!("reading of 01101: refusal {refused}, answer {answer:?}, words {reading:?}");

    let refused = furlazon::encode(&table, &reading, &mut message, &mut answer);
    println!("its message: refusal {refused}, symbols {:?}", &message[..answer[0] as usize]);

    let refused = furlazon::encode(&table, &[2, 0], &mut message, &mut answer);
    let forbidden = refused == REFUSED_FORBIDDEN_PAIR;
    println!("word 0 after word 2: {}", if forbidden { "forbidden" } else { "not forbidden" });

    let refused = furlazon::read(&table, &[], &mut [], &mut [], &mut work[..read_work(0)], &mut answer);
    println!("reading of the empty message: refusal {refused}, answer {answer:?}");

    print_words(&table, &[0, 1, 1, 0, 1, 1, 0, 0, 0, 1], delay, &mut work);
    let refused = furlazon::next(&table, &[1, 0, 1, 1], &mut work, &mut answer);
    println!("next word of 1011: refusal {refused}, answer {answer:?}");
    let refused = furlazon::next(&table, &[1], &mut work, &mut answer);
    let none = refused == REFUSED_NO_READING;
    println!("next word of 1: {}", if none { "none" } else { "some" });

    let mut enlarged = [0; TABLE_BYTES];
    assert_eq!(furlazon::enlarge(&table, b"0,2,1\r\n", &mut enlarged), 0);
    let refused = furlazon::verdict(&enlarged, &mut message, &mut first, &mut second, &mut work, &mut answer);
    println!("verdict with the ban: refusal {refused}, answer {answer:?}");

    let refused = furlazon::encode(&table, &[2, 1, 0], &mut message, &mut answer);
    let symbols = message[..answer[0] as usize].to_vec();
    println!("words 2, 1, 0: refusal {refused}, symbols {symbols:?}");
    let refused = furlazon::encode(&enlarged, &[2, 1, 0], &mut message, &mut answer);
    let forbidden = refused == REFUSED_FORBIDDEN_PAIR;
    println!("words 2, 1, 0 with the ban: {}", if forbidden { "forbidden" } else { "not forbidden" });
    let refused = furlazon::read(&enlarged, &symbols, &mut first, &mut second, &mut work, &mut answer);
    let none = refused == REFUSED_NO_READING;
    println!("reading of that message with the ban: {}", if none { "none" } else { "some" });

    assert_eq!(furlazon::turkish(&mut table), 0);
    let refused = furlazon::verdict(&table, &mut message, &mut first, &mut second, &mut work, &mut answer);
    let [symbols, words, others] = [1, 2, 3].map(|entry| answer[entry] as usize);
    println!("verdict on the Turkish types: refusal {refused}, answer {answer:?}, message {:?}", &message[..symbols]);
    println!("its first reading, words {:?}", &first[..words]);
    println!("its second reading, words {:?}", &second[..others]);
    let refused = furlazon::next(&table, &[1, 0, 1, 1], &mut work, &mut answer);
    let none = refused == REFUSED_NO_FINITE_DELAY;
    println!("next word by the Turkish types: {}", if none { "no finite delay" } else { "a finite delay" });

    // One reading, several, none. The E7 of ISO 8859-9 is a c with cedilla.
    let text = b"krali\xE7e, kongre, bb";
    let mut classes = [0; CLASSES_BYTES];
    assert_eq!(furlazon::turkish_classes(&mut classes), 0);
    let n = text.len();
    let mut out = vec![0; split_out(n)];
    let refused = furlazon::split(
        &table,
        &classes,
        text,
        &mut out,
        &mut message[..split_entries(n)],
        &mut first[..split_entries(n)],
        &mut second[..split_entries(n)],
        &mut work[..split_work(n)],
        &mut answer,
    );
    println!("text split by the Turkish types: refusal {refused}, answer {answer:?}: {}", shown(&out, answer[0]));

    // Vowels are symbol 0, r is 2 and the other consonants are 1: small letters of ASCII only.
    let class_sheet = b"61,61,0\r\n65,65,0\r\n69,69,0\r\n6F,6F,0\r\n75,75,0\r\n72,72,2\r\n\
        62,64,1\r\n66,68,1\r\n6A,6E,1\r\n70,70,1\r\n73,74,1\r\n76,76,1\r\n79,7A,1\r\n";
    let refused = furlazon::take_classes(class_sheet, &mut classes);
    let letters = [b'a', b'r', b't', b'.'].map(|byte| classes[byte as usize]);
    println!("class sheet: refusal {refused}, classes of a, r, t and . {letters:?}");
    // Syllables in which r may come first, or second after another consonant.
    let sheet = b"10,1,1,1,1,1,1\r\n101,1,1,1,1,1,1\r\n120,1,1,1,1,1,1\r\n\
        1201,1,1,1,1,1,1\r\n20,1,1,1,1,1,1\r\n201,1,1,1,1,1,1\r\n";
    assert_eq!(furlazon::take_in(sheet, &mut table), 0);
    let text = b"kongre, matris, bb";
    let n = text.len();
    let mut out = vec![0; split_out(n)];
    let refused = furlazon::split(
        &table,
        &classes,
        text,
        &mut out,
        &mut message[..split_entries(n)],
        &mut first[..split_entries(n)],
        &mut second[..split_entries(n)],
        &mut work[..split_work(n)],
        &mut answer,
    );
    println!("text split by three classes: refusal {refused}, answer {answer:?}: {}", shown(&out, answer[0]));

    let refused = furlazon::take_classes(b"61,7A,1\r\n65,65,0\r\n", &mut classes);
    let overlap = refused == REFUSED_CLASS_OVERLAP;
    println!("class sheet with e in two records: {}", if overlap { "refused" } else { "not refused for that" });
}

/// Names the words of a line that comes in symbol by symbol. The next word is told once as many symbols as the delay
/// stand behind the last break, and at the end of the line by those that are left. Every word may begin, so what is left
/// is a message.
fn print_words(table: &[u8], line: &[u8], delay: usize, work: &mut [u64]) {
    let mut answer = [0; ANSWER_ENTRIES];
    let mut begin = 0;
    for end in 1..=line.len() {
        while begin < end && (begin + delay <= end || end == line.len()) {
            let refused = furlazon::next(table, &line[begin..end], work, &mut answer);
            println!("next word after {end} symbols: refusal {refused}, answer {answer:?}");
            if refused != 0 {
                break;
            }
            // The length of a word stands behind its symbols.
            begin += table[answer[0] as usize * (WORD_SYMBOLS + 1) + WORD_SYMBOLS] as usize;
        }
    }
}

/// The text at the start of a buffer. Six letters of Turkish would need a case of their own: all others have their numbers in Unicode too.
fn shown(out: &[u8], length: u64) -> String {
    out[..length as usize].iter().map(|&byte| byte as char).collect()
}
