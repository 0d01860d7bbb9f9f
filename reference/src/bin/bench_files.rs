//! Times the library's loader and writer of table files against those of this crate, and measures the stack that the library's need.
//!
//! bench_files [repetitions]
//!
//! Each repetition loads and writes each table with both, in turn. Reported is the median of the processor time.
#![forbid(unsafe_code)]

use std::hint::black_box;
use std::process::ExitCode;

use reference::crowded::{self, CROWDED};
use reference::ffi;
use reference::files::{Files, reached};
use reference::processor::{Answer, MAX_TABLE, process};
use reference::programs;
use reference::side::Reference;
use reference::tables::bytes;
use reference::texts::Seed;
use reference::timing;

/// More than the largest file.
const ROOM: usize = 2 * 4_200;
/// The seconds that one timing takes at least.
const LEAST: f64 = 2e-3;
/// The painted stack: much more than a loader should need.
const STACK: usize = 1 << 20;

struct Work {
    name: String,
    /// The reachable locations.
    reachable: usize,
    table: Vec<u8>,
    file: Vec<u8>,
}

fn work(name: String, table: &[u16]) -> Work {
    let (table, reachable) = (bytes(table), reachable(table));
    let mut file = vec![0; ROOM];
    let written = Reference.write(&table, 1, &mut file);
    assert_eq!(written.number, 0, "{name}");
    file.truncate(2 * written.words as usize);
    Work { name, reachable, table, file }
}

/// The reachable locations of a table that is taken.
fn reachable(table: &[u16]) -> usize {
    reached(table).map_or(0, |reached| (1..=table.len()).filter(|location| reached.has(*location)).count())
}

/// A table of an ordinary program: of several, the one with the most reachable locations.
fn ordinary(bytes: usize) -> Vec<u16> {
    let tables = (0..40).map(|seed| {
        let text = programs::typical(&mut Seed::new(seed), bytes).text;
        match process(&text, MAX_TABLE) {
            Answer::Accepted { table, .. } => table,
            refused => panic!("a good program: {refused:?}"),
        }
    });
    tables.max_by_key(|table| reachable(table)).unwrap_or_default()
}

/// Tables of ordinary programs, and crowded ones.
fn works() -> Vec<Work> {
    let programs = [8_192, 32_768].map(|bytes| work("program".to_string(), &ordinary(bytes)));
    let crowded = CROWDED.iter().enumerate().map(|(sort, name)| work(name.to_string(), &crowded::crowded(sort)));
    programs.into_iter().chain(crowded).collect()
}

fn main() -> ExitCode {
    timing::status(bench())
}

fn bench() -> Result<(), ExitCode> {
    let repetitions = timing::repetitions("bench_files", 15)?;
    let library = timing::linked(ffi::files())?;
    println!("median of {repetitions} repetitions, in microseconds a call");
    println!(
        "{:<16}{:>7}{:>7}{:>12}{:>12}{:>10}{:>12}{:>12}{:>10}",
        "table", "words", "reach", "load lib", "rust", "ratio", "write lib", "rust", "ratio"
    );
    let sides: [&dyn Files; 2] = [library, &Reference];
    let works = works();
    for Work { name, reachable, table, file } in &works {
        let mut lent = [vec![0; ROOM], vec![0; ROOM]];
        let answers = [0, 1].map(|side| sides[side].load(file, &mut lent[side]));
        if answers[0] != answers[1] || lent[0] != lent[1] {
            eprintln!("{name}: the two differ: {answers:?}");
            return Err(ExitCode::FAILURE);
        }
        let loads: [f64; 2] = timing::calls(repetitions, LEAST, |side| {
            black_box(sides[side].load(black_box(file), black_box(&mut lent[side])));
        });
        let writes: [f64; 2] = timing::calls(repetitions, LEAST, |side| {
            black_box(sides[side].write(black_box(table), 1, black_box(&mut lent[side])));
        });
        let line = [loads, writes].map(|[ours, rust]| format!("{:>12.2}{:>12.2}{:>10.2}", ours * 1e6, rust * 1e6, ours / rust));
        println!("{name:<16}{:>7}{reachable:>7}{}", table.len() / 2, line.concat());
    }
    let mut deepest = Some(0);
    for Work { table, file, .. } in &works {
        let mut lent = vec![0; ROOM];
        let loads = ffi::stack_used(|| _ = black_box(library.load(file, &mut lent)), STACK);
        let writes = ffi::stack_used(|| _ = black_box(library.write(table, 1, &mut lent)), STACK);
        deepest = deepest.max(loads).max(writes);
    }
    println!("largest stack of the library: {} bytes", deepest.unwrap_or(0));
    Ok(())
}
