//! The baseline of the benchmarks gives the verdicts and the next words of the reference.

use linked::plain;
use reference::operations::{Operations, Reference};
use reference::random::Random;
use reference::{generate, verdict};

#[test]
fn verdicts_agree() {
    let mut random = Random(1);
    for _ in 0..5_000 {
        let code = if random.one_in(2) { generate::code(&mut random) } else { generate::enlarged_code(&mut random) };
        assert_eq!(plain::verdict(&code), verdict::verdict(&code), "{code:?}");
    }
}

#[test]
fn buffers_agree() {
    let mut random = Random(2);
    for _ in 0..2_000 {
        let code = generate::code(&mut random);
        let table = generate::damaged_table(&mut random, &code);
        let mut expected = generate::verdict_buffers(&mut random);
        let mut actual = expected.clone();
        assert_eq!(plain::on_table(&table, &mut actual), Reference.verdict(&table, &mut expected));
        assert_eq!(actual, expected);
    }
}

#[test]
fn next_words_agree() {
    let mut random = Random(3);
    for _ in 0..2_000 {
        let code = if random.one_in(2) { generate::code(&mut random) } else { generate::enlarged_code(&mut random) };
        let table = generate::damaged_table(&mut random, &code);
        let message = generate::line(&mut random, &code, None);
        let mut expected = generate::next_working(&mut random, table.code().is_none());
        let mut actual = expected.clone();
        let answer = plain::next_on_table(&table, &message, &mut actual);
        assert_eq!(answer, Reference.next(&table, &message, &mut expected));
        assert_eq!(actual, expected);
    }
}
