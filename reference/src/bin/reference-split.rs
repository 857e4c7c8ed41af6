//! Takes a text on standard input and prints it with its words split into
//! syllables: by the code of the sheet that is named, or by the twelve Turkish
//! types; and by the classes of the class sheet that is named, or by the
//! Turkish letters: `reference-split [SHEET [CLASSES]]`.

use reference::classes;
use reference::code::Code;
use reference::input::read;
use reference::split::MAX_TEXT_BYTES;
use std::fs::File;
use std::io::{self, Write};

fn main() -> io::Result<()> {
    let arguments: Vec<_> = std::env::args_os().skip(1).collect();
    if arguments.len() > 2 {
        eprintln!("usage: reference-split [SHEET.csv [CLASSES.csv]] < TEXT");
        return Ok(());
    }
    let text = read(io::stdin(), MAX_TEXT_BYTES)?;
    let named = |at: usize, limit: usize| arguments.get(at).map(|path| read(File::open(path)?, limit)).transpose();
    let sheet = named(0, Code::MAX_SHEET_BYTES)?;
    let classes = named(1, classes::MAX_SHEET_BYTES)?;
    io::stdout().write_all(&reference::print::split(sheet.as_deref(), classes.as_deref(), &text))
}
