//! Messages that are still coming in, and the working buffer for naming their next words.

use super::{carried_on, inner_sequence, message, permitted_sequence, working};
use crate::code::Code;
use crate::copies::without_copies;
use crate::encode::{joined, permitted};
use crate::operations::VERDICT_WORKING;
use crate::random::Random;

/// A message of which only the first symbols count, as many as the delay: cut
/// or changed at that place, before it or behind it. Where there is no delay,
/// some place stands for it. Now and then the message is empty, of any kind,
/// or about as long as a message may be.
pub fn line(random: &mut Random, code: &Code, delay: Option<usize>) -> Vec<u8> {
    let delay = delay.unwrap_or_else(|| random.below(6));
    let mut line = match random.below(20) {
        0 => message(random, code),
        1 => Vec::new(),
        _ => joined(code, &opening(random, code, delay)),
    };
    cut(random, &mut line, delay);
    // Where no symbol counts, or no word may begin, any symbols will do.
    if line.is_empty() && !random.one_in(4) {
        line = (0..random.between(1, delay + 2)).map(|_| random.below(3) as u8).collect();
    }
    change(random, &mut line, delay);
    if !line.is_empty() && random.one_in(40) {
        let length = Code::MAX_MESSAGE_SYMBOLS + random.below(2);
        line = line.iter().copied().cycle().take(length).collect();
    }
    line
}

/// A sequence that mostly has more symbols than the delay and is mostly
/// permitted; sometimes but for its first word, or for bans that look two words
/// back.
fn opening(random: &mut Random, code: &Code, delay: usize) -> Vec<u8> {
    let words = if random.one_in(4) { random.between(1, 3) } else { delay + random.between(1, 3) };
    if !code.copies.is_empty() && random.one_in(3) {
        return banned(random, code, words);
    }
    if random.one_in(8) {
        inner_sequence(random, code, words)
    } else {
        permitted_sequence(random, code, words)
    }
}

/// A sequence that is permitted but for a ban that looks two words back, soon if there is such a ban.
fn banned(random: &mut Random, code: &Code, words: usize) -> Vec<u8> {
    let (unbanned, bans) = without_copies(code);
    let begin = bans.iter().map(|ban| vec![ban.y, ban.z, ban.x]).filter(|three| permitted(&unbanned, three));
    match &begin.collect::<Vec<_>>()[..] {
        [] => permitted_sequence(random, &unbanned, words),
        begin => {
            let begin = random.pick(begin).clone();
            carried_on(random, &unbanned, begin, words)
        }
    }
}

/// Cuts a message, mostly about the delay.
fn cut(random: &mut Random, line: &mut Vec<u8>, delay: usize) {
    let length = match random.below(10) {
        0 | 1 => delay,
        2 => delay.saturating_sub(1),
        3 => delay + 1,
        4 => random.between(0, delay),
        5 => random.between(0, line.len()),
        _ => line.len(),
    };
    line.truncate(length);
}

/// Changes one symbol, or every one behind the delay: to another or to one that is too high.
fn change(random: &mut Random, line: &mut [u8], delay: usize) {
    let high = *random.pick(&[16, 17, 255]);
    let symbol = if random.one_in(3) { high } else { random.below(3) as u8 };
    let at = match random.below(12) {
        0 => delay.saturating_sub(1),
        1 => delay,
        2 => random.between(0, delay),
        3 => random.below(line.len() + 1),
        4 => return line.iter_mut().skip(delay).for_each(|behind| *behind = symbol),
        _ => return,
    };
    line.iter_mut().skip(at).take(1).for_each(|changed| *changed = symbol);
}

/// The working buffer. Where the table or the message is refused before it, it is mostly too short as well.
pub fn next_working(random: &mut Random, refused: bool) -> Vec<u64> {
    let short = refused && !random.one_in(4);
    working(random, if short { 20 } else { VERDICT_WORKING })
}
