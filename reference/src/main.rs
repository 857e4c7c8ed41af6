//! Takes a sheet on standard input, and a ban list from a file if one is
//! named, and prints the result.

use reference::code::Code;
use reference::input::read;
use std::fs::File;
use std::io::{self, Write};

fn main() -> io::Result<()> {
    let arguments: Vec<_> = std::env::args_os().skip(1).collect();
    if arguments.len() > 1 {
        eprintln!("usage: reference [LIST.bans] < SHEET.csv");
        return Ok(());
    }
    let sheet = read(io::stdin(), Code::MAX_SHEET_BYTES)?;
    let list = match arguments.first() {
        Some(path) => read(File::open(path)?, Code::MAX_BANS_BYTES)?,
        None => Vec::new(),
    };
    io::stdout().write_all(&reference::print::result(&sheet, &list))
}
