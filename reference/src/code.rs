//! Words, copies of words, start marks, followers and the numbered refusals.

/// A code: its words in sheet order, which of them may begin a message, and
/// which word may come after which. A code that [`crate::copies`] has enlarged
/// has copies of words after the words; sequences and readings name them by
/// the words that they are copies of, the originals.
#[derive(Clone, PartialEq, Eq, Debug)]
pub struct Code {
    /// The symbols of each word, each 0 to 15; the copies stand last.
    pub words: Vec<Vec<u8>>,
    /// `starts[x]`: word `x` may begin a message.
    pub starts: Vec<bool>,
    /// `rows[x][y]`: word `x` may come immediately after word `y`.
    pub rows: Vec<Vec<bool>>,
    /// What each copy is.
    pub copies: Vec<Copied>,
}

/// A copy of a word, which stands in its place after one other word.
#[derive(Clone, Copy, PartialEq, Eq, Debug)]
pub struct Copied {
    pub word: u8,
    /// The word after which the copy stands, and after whose copies.
    pub behind: u8,
}

impl Code {
    pub const MAX_WORDS: usize = 32;
    pub const MAX_WORD_SYMBOLS: usize = 16;
    pub const MAX_SYMBOLS: usize = 128;
    pub const MAX_SHEET_BYTES: usize = 4_096;
    pub const MAX_BANS_BYTES: usize = 4_096;
    pub const MAX_MESSAGE_SYMBOLS: usize = 16_384;

    /// A code in which every word may begin a message.
    pub fn new(words: Vec<Vec<u8>>, rows: Vec<Vec<bool>>) -> Code {
        Code { starts: vec![true; words.len()], words, rows, copies: Vec::new() }
    }

    /// A code from words in hexadecimal digits and rows of the digits 0 and 1;
    /// every word may begin. For hand-written codes; the text is trusted.
    pub fn of(words: &[&str], rows: &[&str]) -> Code {
        let digit = |c: char| c.to_digit(16).expect("a hexadecimal digit") as u8;
        Code::new(
            words.iter().map(|w| w.chars().map(digit).collect()).collect(),
            rows.iter().map(|r| bits(r)).collect(),
        )
    }

    /// This code with other start marks, as digits 0 and 1.
    pub fn with_starts(self, marks: &str) -> Code {
        Code { starts: bits(marks), ..self }
    }

    /// A code without bans.
    pub fn free(words: &[&str]) -> Code {
        let row = "1".repeat(words.len());
        Code::of(words, &vec![row.as_str(); words.len()])
    }

    /// May word `x` come immediately after word `y`?
    pub fn may_follow(&self, x: usize, y: usize) -> bool {
        self.rows[x][y]
    }

    /// May word `x` come next: immediately after the last word, or at the start where there is none?
    pub fn may_come(&self, x: usize, last: Option<u8>) -> bool {
        last.map_or(self.starts[x], |y| self.may_follow(x, y as usize))
    }

    /// The words that may come next, as a mask of bits.
    pub fn choices(&self, last: Option<u8>) -> u32 {
        (0..self.words.len()).filter(|&x| self.may_come(x, last)).fold(0, |mask, x| mask | 1 << x)
    }

    /// The number of words that are no copies.
    pub fn originals(&self) -> usize {
        self.words.len() - self.copies.len()
    }

    /// The word that `x` is a copy of; `x` itself where it is none.
    pub fn original(&self, x: usize) -> usize {
        x.checked_sub(self.originals()).map_or(x, |copy| self.copies[copy].word as usize)
    }

    /// What stands for an original word right after another: the copy that fits there, or the word where there is none.
    pub fn fitting(&self, word: usize, behind: usize) -> usize {
        let fits = |copy: &Copied| (copy.word as usize, copy.behind as usize) == (word, behind);
        self.copies.iter().position(fits).map_or(word, |copy| self.originals() + copy)
    }

    /// All symbols of all words, counted.
    pub fn symbols(&self) -> usize {
        self.words.iter().map(Vec::len).sum()
    }
}

/// The digits 0 and 1 as truth values.
fn bits(digits: &str) -> Vec<bool> {
    digits.chars().map(|digit| digit == '1').collect()
}

/// The refusals, by their numbers, under the names of the verified source.
#[derive(Clone, Copy, PartialEq, Eq, PartialOrd, Ord, Debug)]
#[repr(u8)]
pub enum Refusal {
    SheetLength = 1,
    SheetBytes = 2,
    RecordCount = 3,
    WordLength = 4,
    CodeLength = 5,
    FieldCount = 6,
    RowEntry = 7,
    NotFromSheet = 8,
    UnknownWord = 9,
    ForbiddenPair = 10,
    MessageLength = 11,
    MessageSymbol = 12,
    ShortBuffer = 13,
    NoReading = 14,
    StartField = 15,
    BanRecord = 16,
    BanLimit = 17,
    ClassRecord = 18,
    ClassRange = 19,
    ClassOverlap = 20,
    NoFiniteDelay = 21,
}

impl Refusal {
    pub fn number(self) -> u8 {
        self as u8
    }
}
