//! The largest codes: at the limits, and with the verdicts they were built for.

use reference::code::Code;
use reference::encode::encode;
use reference::largest;
use reference::pairs::explore;
use reference::rivals::Rivals;
use reference::sheet::{take_in, write};
use reference::verdict::{verdict, Verdict};

fn at_the_limits(code: &Code) {
    assert_eq!((code.words.len(), code.symbols()), (Code::MAX_WORDS, Code::MAX_SYMBOLS));
    assert_eq!(take_in(&write(code)).as_ref(), Ok(code));
}

#[test]
fn a_long_ambiguous_message() {
    let code = largest::ambiguous();
    at_the_limits(&code);
    let Verdict::Ambiguous { message, first, second } = verdict(&code) else { panic!() };
    let text: Vec<u8> = (0..360).map(|i| u8::from(i % 5 == 4)).collect();
    assert_eq!(message, text);
    assert_eq!(first, [0, 1, 2].repeat(9));
    assert_eq!(second, [3, 4, 5].repeat(8));
    assert_eq!(encode(&code, &first).as_ref(), Ok(&text));
    assert_eq!(encode(&code, &second).as_ref(), Ok(&text));
}

#[test]
fn a_large_finite_delay() {
    let code = largest::delay();
    at_the_limits(&code);
    assert_eq!(verdict(&code), Verdict::Delay(279));
}

#[test]
fn many_pairs_without_bound() {
    let code = largest::unbounded();
    at_the_limits(&code);
    assert_eq!(verdict(&code), Verdict::Unbounded);
    assert_eq!(explore(&code, &Rivals::of(&code)).pairs.len(), 1_572);
}
