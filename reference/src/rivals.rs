//! Words that compete for the next place in a sequence.

use crate::code::Code;

/// For each word the others that may stand in its place, as a mask of bits:
/// both may begin, or both may follow the last word of one permitted sequence.
pub struct Rivals(Vec<u32>);

impl Rivals {
    /// Looks at what may come next at the start and after every word that a
    /// permitted sequence reaches. Only the last word of a sequence matters.
    pub fn of(code: &Code) -> Rivals {
        let mut rivals = vec![0; code.words.len()];
        let mut reached = 0u32;
        let mut waiting = vec![None];
        while let Some(last) = waiting.pop() {
            let choices = code.choices(last);
            for (word, rivals) in rivals.iter_mut().enumerate().filter(|&(word, _)| choices >> word & 1 == 1) {
                *rivals |= choices & !(1 << word);
                if reached >> word & 1 == 0 {
                    reached |= 1 << word;
                    waiting.push(Some(word as u8));
                }
            }
        }
        Rivals(rivals)
    }

    pub fn compete(&self, x: usize, y: usize) -> bool {
        self.0[x] >> y & 1 == 1
    }

    /// Does no word compete with another?
    pub fn none(&self) -> bool {
        self.0.iter().all(|&rivals| rivals == 0)
    }
}
