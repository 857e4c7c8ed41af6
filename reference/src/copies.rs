//! Bans that look two words back, turned into copies of words.
//!
//! Gönenç's way, at the end of his section 4: a ban "X never follows Y then Z"
//! needs a copy of Z, which takes the place of Z after Y. The copy remembers
//! what came before it, so X can be kept from following it as from any word.
//! A sequence of words that obeys the bans is then one sequence of words and
//! copies: each word after the first is followed by what fits there.

use crate::bans::Ban;
use crate::code::{Code, Copied, Refusal};

/// The code with one copy for each two words Y, Z that the bans name, in the
/// order in which they first do; refusal 17 where the copies pass a limit. The
/// code has no copies, and the bans are on its words.
pub fn enlarge(code: &Code, bans: &[Ban]) -> Result<Code, Refusal> {
    let copies = copies(bans);
    let copied = copies.iter().map(|copy| &code.words[copy.word as usize]);
    let words: Vec<Vec<u8>> = code.words.iter().chain(copied).cloned().collect();
    let count = words.len();
    let starts = code.starts.iter().copied().chain(copies.iter().map(|_| false)).collect();
    let mut enlarged = Code { words, starts, rows: vec![vec![false; count]; count], copies };
    if count > Code::MAX_WORDS || enlarged.symbols() > Code::MAX_SYMBOLS {
        return Err(Refusal::BanLimit);
    }
    for last in 0..count {
        let y = enlarged.original(last);
        for x in 0..code.words.len() {
            let next = enlarged.fitting(x, y);
            enlarged.rows[next][last] = code.may_follow(x, y);
        }
    }
    for ban in bans {
        let [x, y, z] = [ban.x, ban.y, ban.z].map(usize::from);
        let (next, last) = (enlarged.fitting(x, z), enlarged.fitting(z, y));
        enlarged.rows[next][last] = false;
    }
    Ok(enlarged)
}

/// A copy for each two words Y, Z, in the order of the bans.
fn copies(bans: &[Ban]) -> Vec<Copied> {
    let mut copies = Vec::new();
    for ban in bans {
        let copy = Copied { word: ban.z, behind: ban.y };
        if !copies.contains(&copy) {
            copies.push(copy);
        }
    }
    copies
}

/// The code of the originals, and the bans that the copies stand for. Of an
/// enlarged code these are bans that enlarge it so; a ban on what may not come
/// anyway is among them.
pub fn without_copies(code: &Code) -> (Code, Vec<Ban>) {
    let originals = code.originals();
    let row = |x: usize| (0..originals).map(|y| code.may_follow(code.fitting(x, y), y)).collect();
    let mut bans = Vec::new();
    for (number, copy) in code.copies.iter().enumerate() {
        for x in 0..originals {
            if !code.may_follow(code.fitting(x, copy.word as usize), originals + number) {
                bans.push(Ban { x: x as u8, y: copy.behind, z: copy.word });
            }
        }
    }
    let words = Code {
        words: code.words[..originals].to_vec(),
        starts: code.starts[..originals].to_vec(),
        rows: (0..originals).map(row).collect(),
        copies: Vec::new(),
    };
    (words, bans)
}

/// Do a code and bans give this code? A code without copies is given without
/// bans. The copies are of original words, and stand after such.
pub fn is_enlarged(code: &Code) -> bool {
    if code.copies.is_empty() {
        return true;
    }
    if code.copies.iter().any(|copy| copy.word == copy.behind) {
        return false;
    }
    let (words, bans) = without_copies(code);
    enlarge(&words, &bans).as_ref() == Ok(code)
}
