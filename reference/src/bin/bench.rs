//! Times the verdict on every sheet of a folder that is accepted, with the ban
//! list beside it if there is one: `bench FOLDER [SECONDS]`.

use reference::operations::{Buffers, Operations, Reference, VERDICT_ENTRIES, VERDICT_WORKING};
use reference::print::take_in;
use reference::table::Table;
use std::hint::black_box;
use std::time::{Duration, Instant};
use std::{env, fs, io};

fn main() -> io::Result<()> {
    let mut arguments = env::args().skip(1);
    let folder = arguments.next().unwrap_or_else(|| "sheets".to_string());
    let seconds = arguments.next().and_then(|text| text.parse().ok()).unwrap_or(0.2);
    let mut paths: Vec<_> = fs::read_dir(folder)?.map(|file| file.map(|file| file.path())).collect::<Result<_, _>>()?;
    paths.retain(|path| path.extension().is_some_and(|extension| extension == "csv"));
    paths.sort();
    for path in paths {
        let sheet = fs::read(&path)?;
        let list = fs::read(path.with_extension("bans")).unwrap_or_default();
        if let Ok(code) = take_in(&sheet, &list) {
            let name = path.file_stem().unwrap_or_default().to_string_lossy();
            let time = per_verdict(&mut Reference, &Table::of(&code), Duration::from_secs_f64(seconds));
            println!("{name:30} {:>12.2} µs", time.as_secs_f64() * 1e6);
        }
    }
    Ok(())
}

/// The shortest time of a verdict, buffers included, in as many trials as the span allows.
fn per_verdict(program: &mut impl Operations, table: &Table, span: Duration) -> Duration {
    let mut buffers = Buffers {
        message: vec![0; VERDICT_ENTRIES],
        first: vec![0; VERDICT_ENTRIES],
        second: vec![0; VERDICT_ENTRIES],
        working: vec![0; VERDICT_WORKING],
    };
    let mut best = Duration::MAX;
    let start = Instant::now();
    while start.elapsed() < span {
        let trial = Instant::now();
        black_box(program.verdict(black_box(table), &mut buffers)).expect("the table is from a sheet");
        best = best.min(trial.elapsed());
    }
    best
}
