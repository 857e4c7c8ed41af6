//! The printed result: records ended by CR LF, or a text that is split.

use crate::code::{Code, Refusal};
use crate::verdict::{verdict, Verdict};
use crate::{bans, classes, copies, letters, sheet, turkish};

/// The hexadecimal digit of a symbol.
pub fn digit(symbol: u8) -> u8 {
    b"0123456789ABCDEF"[symbol as usize]
}

/// What the program prints for a sheet and a ban list, whole. A list of 0 bytes is as good as none.
pub fn result(sheet: &[u8], list: &[u8]) -> Vec<u8> {
    take_in(sheet, list).map_or_else(refused, |code| printed(&verdict(&code)))
}

/// What is printed for a text, whole. The code is that of the code sheet and the classes are those of the class sheet, without one
/// the built-in ones. The code sheet's refusal comes first, then that of the class sheet.
pub fn split(code_sheet: Option<&[u8]>, class_sheet: Option<&[u8]>, text: &[u8]) -> Vec<u8> {
    split_by(code_sheet, class_sheet, text).unwrap_or_else(refused)
}

fn split_by(code_sheet: Option<&[u8]>, class_sheet: Option<&[u8]>, text: &[u8]) -> Result<Vec<u8>, Refusal> {
    let code = code_sheet.map_or_else(|| Ok(turkish::code()), sheet::take_in)?;
    let classes = class_sheet.map_or_else(|| Ok(letters::TURKISH.clone()), classes::take_in)?;
    crate::split::split(&code, &classes, text)
}

/// The record of a refusal.
fn refused(refusal: Refusal) -> Vec<u8> {
    format!("refused,{}\r\n", refusal.number()).into_bytes()
}

/// The code of a sheet, enlarged by a ban list; the sheet's refusal comes first.
pub fn take_in(sheet: &[u8], list: &[u8]) -> Result<Code, Refusal> {
    let code = sheet::take_in(sheet)?;
    copies::enlarge(&code, &bans::take_in(list, code.words.len())?)
}

/// The records of a verdict.
pub fn printed(verdict: &Verdict) -> Vec<u8> {
    match verdict {
        Verdict::Delay(delay) => format!("decipherable,{delay}\r\n"),
        Verdict::Unbounded => "decipherable,unbounded\r\n".to_string(),
        Verdict::Ambiguous { message, first, second } => {
            let digits: String = message.iter().map(|&symbol| digit(symbol) as char).collect();
            format!("ambiguous,{digits}\r\n{}\r\n{}\r\n", numbers(first), numbers(second))
        }
    }
    .into_bytes()
}

/// Word numbers in decimal, parted by commas.
fn numbers(reading: &[u8]) -> String {
    let numbers: Vec<String> = reading.iter().map(u8::to_string).collect();
    numbers.join(",")
}
