//! A code as a table of fixed size, the form in which programs hand it to each other.

use crate::code::{Code, Copied};
use crate::copies::is_enlarged;

/// The symbols of a word stand at the start; what follows is zero.
#[repr(C)]
#[derive(Clone, Copy, PartialEq, Eq, Debug)]
pub struct Word {
    pub symbols: [u8; Code::MAX_WORD_SYMBOLS],
    pub len: usize,
}

/// Entry Y of row X is 1 if word X may come immediately after word Y, else 0.
#[repr(C)]
#[derive(Clone, Copy, PartialEq, Eq, Debug)]
pub struct Row {
    pub entries: [u8; Code::MAX_WORDS],
}

/// Words, and after them copies of words. What stands past the count is zero.
#[repr(C)]
#[derive(Clone, PartialEq, Eq, Debug)]
pub struct Table {
    pub words: [Word; Code::MAX_WORDS],
    pub rows: [Row; Code::MAX_WORDS],
    /// Entry X is 1 if word X may begin a message, else 0.
    pub starts: [u8; Code::MAX_WORDS],
    /// Words and copies together.
    pub count: usize,
    /// The words that are no copies.
    pub originals: usize,
    /// The word that each is a copy of, itself where it is none.
    pub origins: [u8; Code::MAX_WORDS],
    /// The word after which each copy stands, and 0 for a word.
    pub behind: [u8; Code::MAX_WORDS],
}

impl Table {
    /// No words, all zero: what a refused sheet or list gives.
    pub const BLANK: Table = Table {
        words: [Word { symbols: [0; Code::MAX_WORD_SYMBOLS], len: 0 }; Code::MAX_WORDS],
        rows: [Row { entries: [0; Code::MAX_WORDS] }; Code::MAX_WORDS],
        starts: [0; Code::MAX_WORDS],
        count: 0,
        originals: 0,
        origins: [0; Code::MAX_WORDS],
        behind: [0; Code::MAX_WORDS],
    };

    /// The table of a code that a sheet gave, or a sheet and a ban list.
    pub fn of(code: &Code) -> Table {
        let mut table = Table::BLANK;
        table.count = code.words.len();
        table.originals = code.originals();
        for x in 0..table.count {
            table.origins[x] = code.original(x) as u8;
        }
        for (behind, copy) in table.behind[table.originals..].iter_mut().zip(&code.copies) {
            *behind = copy.behind;
        }
        for (mark, &start) in table.starts.iter_mut().zip(&code.starts) {
            *mark = u8::from(start);
        }
        for (x, (word, row)) in code.words.iter().zip(&code.rows).enumerate() {
            table.words[x].len = word.len();
            table.words[x].symbols[..word.len()].copy_from_slice(word);
            for (y, &entry) in row.iter().enumerate() {
                table.rows[x].entries[y] = u8::from(entry);
            }
        }
        table
    }

    /// The code in a table; none if no accepted sheet gives this table value, alone or with a ban list.
    pub fn code(&self) -> Option<Code> {
        if !(1..=Code::MAX_WORDS).contains(&self.count) || !(1..=self.count).contains(&self.originals) {
            return None;
        }
        let words = &self.words[..self.count];
        if !words.iter().all(|word| (1..=Code::MAX_WORD_SYMBOLS).contains(&word.len)) {
            return None;
        }
        let copies = self.originals..self.count;
        let is_original = |word: &u8| (*word as usize) < self.originals;
        if !self.origins[copies.clone()].iter().chain(&self.behind[copies.clone()]).all(is_original) {
            return None;
        }
        let code = Code {
            words: words.iter().map(|word| word.symbols[..word.len].to_vec()).collect(),
            starts: self.starts[..self.count].iter().map(|&mark| mark == 1).collect(),
            rows: self.rows[..self.count]
                .iter()
                .map(|row| row.entries[..self.count].iter().map(|&entry| entry == 1).collect())
                .collect(),
            copies: copies.map(|x| Copied { word: self.origins[x], behind: self.behind[x] }).collect(),
        };
        let symbols_fit = code.words.iter().flatten().all(|&symbol| symbol < 16);
        // Written out again, the code shows entries and marks other than 0 and 1 and anything past the counts.
        let fits = symbols_fit && code.symbols() <= Code::MAX_SYMBOLS && Table::of(&code) == *self;
        (fits && is_enlarged(&code)).then_some(code)
    }
}
