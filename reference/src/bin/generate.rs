//! Prints one generated sheet: one of the largest codes by name, or a random
//! or damaged sheet by the start of the generator; or a ban list for the
//! random sheet with that start; or a random or damaged class sheet.

use reference::random::Random;
use reference::{generate, largest, sheet};
use std::io::{self, Write};

const USAGE: &str = "usage: generate ambiguous|delay|unbounded
       generate sheet|damaged|bans|classes|damaged-classes START";

fn main() -> io::Result<()> {
    let arguments: Vec<String> = std::env::args().skip(1).collect();
    let arguments: Vec<&str> = arguments.iter().map(String::as_str).collect();
    match generated(&arguments) {
        Some(sheet) => io::stdout().write_all(&sheet),
        None => {
            eprintln!("{USAGE}");
            std::process::exit(2);
        }
    }
}

fn generated(arguments: &[&str]) -> Option<Vec<u8>> {
    match arguments {
        ["ambiguous"] => Some(sheet::write(&largest::ambiguous())),
        ["delay"] => Some(sheet::write(&largest::delay())),
        ["unbounded"] => Some(sheet::write(&largest::unbounded())),
        ["sheet", start] => Some(generate::sheet(&mut Random(start.parse().ok()?))),
        ["bans", start] => {
            let mut random = Random(start.parse().ok()?);
            let code = sheet::take_in(&generate::sheet(&mut random)).expect("a sound sheet");
            Some(generate::list(&mut random, &code))
        }
        ["damaged", start] => Some(generate::damaged_sheet(&mut Random(start.parse().ok()?))),
        ["classes", start] => Some(generate::class_sheet(&mut Random(start.parse().ok()?))),
        ["damaged-classes", start] => Some(generate::damaged_class_sheet(&mut Random(start.parse().ok()?))),
        _ => None,
    }
}
