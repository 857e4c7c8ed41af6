//! The verdict on a code, by the pair procedure.

use crate::code::Code;
use crate::pairs;
use crate::read::{first_two, Readings};
use crate::rivals::Rivals;

#[derive(Clone, PartialEq, Eq, Debug)]
pub enum Verdict {
    /// The shortest ambiguous message, earliest in symbol order among equals,
    /// with its first two readings in word order.
    Ambiguous { message: Vec<u8>, first: Vec<u8>, second: Vec<u8> },
    /// Decipherable with this delay, in symbols.
    Delay(usize),
    /// Decipherable without bound on the delay.
    Unbounded,
}

impl Verdict {
    /// The delay, where it is finite.
    pub fn delay(&self) -> Option<usize> {
        match self {
            Verdict::Delay(delay) => Some(*delay),
            _ => None,
        }
    }
}

pub fn verdict(code: &Code) -> Verdict {
    let rivals = Rivals::of(code);
    if rivals.none() {
        return Verdict::Delay(0);
    }
    let graph = pairs::explore(code, &rivals);
    if let Some(message) = graph.ambiguous_message() {
        return ambiguous(code, message);
    }
    match graph.longest_path() {
        None => Verdict::Unbounded,
        Some(steps) => Verdict::Delay(steps + 1),
    }
}

/// The verdict on an ambiguous code, given the least message that two rivals
/// share. Where every word may begin, no opening is needed before it.
fn ambiguous(code: &Code, after_opening: Vec<u8>) -> Verdict {
    let message = if code.starts.contains(&false) {
        pairs::explore_openings(code).ambiguous_message().expect("rivals stand after an opening")
    } else {
        after_opening
    };
    match first_two(code, &message) {
        Some(Readings::Two(first, second)) => Verdict::Ambiguous { message, first, second },
        _ => unreachable!("a pair of two different ends gives two readings"),
    }
}
