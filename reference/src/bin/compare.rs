//! Runs another program on generated sheets, half of them with a ban list, and
//! compares what it prints with what the reference prints: `compare PROGRAM
//! [START [COUNT]]`. Its exit status has to be 0.

use reference::random::Random;
use reference::{generate, print, sheet};
use std::collections::BTreeMap;
use std::io::{self, Write};
use std::path::{Path, PathBuf};
use std::process::{exit, Command, Output, Stdio};
use std::{env, fs, process};

fn main() -> io::Result<()> {
    let arguments: Vec<String> = env::args().skip(1).collect();
    let number = |at: usize, other: u64| arguments.get(at).map_or(Some(other), |text| text.parse().ok());
    // A run that compares nothing is none.
    let count = number(2, 1_000).filter(|&count| count > 0);
    let (Some(program), Some(start), Some(count)) = (arguments.first(), number(1, 1), count) else {
        eprintln!("usage: compare PROGRAM [START [COUNT]]");
        exit(2);
    };
    println!("start {start}, {count} sheets");
    let file = BanFile(env::temp_dir().join(format!("compare-{}.bans", process::id())));
    let mut random = Random(start);
    let mut met: BTreeMap<String, usize> = BTreeMap::new();
    for round in 0..count {
        let sheet = if round % 2 == 0 { generate::sheet(&mut random) } else { generate::damaged_sheet(&mut random) };
        let list = random.one_in(2).then(|| list(&mut random, &sheet));
        let expected = print::result(&sheet, list.as_deref().unwrap_or_default());
        if let Some(list) = &list {
            fs::write(&file.0, list)?;
        }
        let Output { status, stdout: actual, .. } = run(program, &sheet, list.is_some().then_some(&file.0))?;
        if actual != expected || !status.success() {
            println!("sheet {round} differs: {:?}", String::from_utf8_lossy(&sheet));
            println!("ban list: {:?}", list.map(|list| String::from_utf8_lossy(&list).into_owned()));
            println!("expected {:?}", String::from_utf8_lossy(&expected));
            println!("but met {:?}, {status}", String::from_utf8_lossy(&actual));
            drop(file);
            exit(1);
        }
        let with = if list.is_some() { ", with a ban list" } else { "" };
        *met.entry(kind(&expected) + with).or_default() += 1;
    }
    met.iter().for_each(|(kind, times)| println!("{times} {kind}"));
    println!("all the same: {count} sheets, start {start}");
    Ok(())
}

/// The file that a ban list is handed over in; it is removed at the end.
struct BanFile(PathBuf);

impl Drop for BanFile {
    fn drop(&mut self) {
        let _ = fs::remove_file(&self.0);
    }
}

/// A ban list for the code of a sheet, for any code where the sheet is refused.
fn list(random: &mut Random, sheet: &[u8]) -> Vec<u8> {
    let code = sheet::take_in(sheet).unwrap_or_else(|_| generate::code(random));
    generate::list(random, &code)
}

/// The kind of a printed result, for counting.
fn kind(printed: &[u8]) -> String {
    let text = String::from_utf8_lossy(printed);
    match text.trim_end().split_once(',') {
        Some(("refused", number)) => format!("refused,{number}"),
        Some(("decipherable", "unbounded")) => "decipherable,unbounded".to_string(),
        Some((first, _)) => first.to_string(),
        None => "other".to_string(),
    }
}

/// What the program prints for a sheet on its standard input, and how it ends; the path of a ban list, if there is one, is its argument.
fn run(program: &str, sheet: &[u8], list: Option<impl AsRef<Path>>) -> io::Result<Output> {
    let arguments = list.iter().map(|path| path.as_ref());
    let mut child = Command::new(program)
        .args(arguments)
        .stdin(Stdio::piped())
        .stdout(Stdio::piped())
        .stderr(Stdio::null())
        .spawn()?;
    let mut input = child.stdin.take().expect("its standard input is a pipe");
    // A program that stops reading a sheet too long for it is in its right.
    let _ = input.write_all(sheet);
    drop(input);
    child.wait_with_output()
}
