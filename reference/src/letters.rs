//! The letters of Turkish as bytes of ISO 8859-9, and the symbols that they
//! stand for. The lists of vowels and consonants are those of the papers.

use crate::classes::Classes;
use std::sync::LazyLock;

pub const VOWELS: &str = "aeıioöuü";
pub const CONSONANTS: &str = "bcçdfgğhjklmnprsştvyz";

/// A vowel is symbol 0 and a consonant symbol 1, small or capital.
pub static TURKISH: LazyLock<Classes> = LazyLock::new(|| {
    let mut classes = Classes::NONE;
    for (symbol, letters) in [(0, VOWELS), (1, CONSONANTS)] {
        for letter in letters.chars() {
            for byte in [letter, capital(letter)].map(byte) {
                classes.0[byte as usize] = Some(symbol);
            }
        }
    }
    classes
});

/// The same letters with symbol 2 for r, which Gönenç tells from the other consonants at the end of his section 5.
pub fn with_r_apart() -> Classes {
    let mut classes = TURKISH.clone();
    b"rR".iter().for_each(|&byte| classes.0[byte as usize] = Some(2));
    classes
}

/// The Turkish capital of a letter. The dot of i stays, so that I is the capital of ı.
pub fn capital(letter: char) -> char {
    match letter {
        'i' => 'İ',
        _ => letter.to_uppercase().next().expect("a letter"),
    }
}

/// The byte of a character that ISO 8859-9 has. It is Latin-1, the first 256
/// characters of Unicode, with six letters of Turkish in the place of others.
fn byte(character: char) -> u8 {
    match character {
        'Ğ' => 0xD0,
        'İ' => 0xDD,
        'Ş' => 0xDE,
        'ğ' => 0xF0,
        'ı' => 0xFD,
        'ş' => 0xFE,
        _ if "ÐÝÞðýþ".contains(character) => panic!("{character} is not in ISO 8859-9"),
        _ => u8::try_from(character).expect("a character of ISO 8859-9"),
    }
}

/// A hand-written text in ISO 8859-9; it is trusted to have no other characters.
pub fn bytes(text: &str) -> Vec<u8> {
    text.chars().map(byte).collect()
}
