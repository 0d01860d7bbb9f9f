//! Times the library's character filter against a plain one in Rust.
//!
//! bench_filter [repetitions]
//!
//! Each repetition folds each text with both, in turn, into the same buffer. Reported is the median of the processor time.
#![forbid(unsafe_code)]

use std::hint::black_box;
use std::process::ExitCode;

use reference::ffi;
use reference::random::Rng;
use reference::side::{Filtered, Folder};
use reference::timing;

const SIZES: [usize; 3] = [64, 4_096, 1 << 20];
/// The seconds that one timing of one side takes at least.
const LEAST: f64 = 5e-3;

/// The plain filter: the checks, a table of 256 tokens, and one pass over the text.
struct Plain;

/// The numbers of refusals.
const TOO_MANY: u16 = 9;
const TOO_SHORT: u16 = 20;
const CROSSED: u16 = 42;
const DOUBLED: u16 = 43;
const MISSING: u16 = 44;

fn table(filter: &[u8]) -> Result<[u16; 256], (u16, usize)> {
    let (entries, _) = filter.as_chunks::<4>();
    if entries.len() > 64 {
        return Err((TOO_MANY, 0));
    }
    if let Some(entry) = entries.iter().position(|[first, last, ..]| first > last) {
        return Err((CROSSED, entry));
    }
    let (mut held, mut tokens) = ([0u8; 256], [0u16; 256]);
    for &[first, last, high, low] in entries {
        for byte in first..=last {
            held[usize::from(byte)] += 1;
            tokens[usize::from(byte)] = u16::from_be_bytes([high, low]);
        }
    }
    match held.iter().position(|&held| held > 1) {
        Some(byte) => Err((DOUBLED, byte)),
        None => match held.iter().position(|&held| held == 0) {
            Some(byte) => Err((MISSING, byte)),
            None => Ok(tokens),
        },
    }
}

impl Folder for Plain {
    fn name(&self) -> &'static str {
        "rust"
    }

    fn fold(&self, filter: &[u8], text: &[u8], tokens: &mut [u8]) -> Filtered {
        let (words, _) = tokens.as_chunks_mut::<2>();
        let refused = |(number, at)| Filtered { number, at: at as u64, written: 0 };
        match table(filter) {
            Err(refusal) => refused(refusal),
            Ok(_) if words.len() < text.len() => refused((TOO_SHORT, 0)),
            Ok(table) => {
                for (word, byte) in words.iter_mut().zip(text) {
                    *word = table[usize::from(*byte)].to_be_bytes();
                }
                Filtered { number: 0, at: 0, written: text.len() as u64 }
            }
        }
    }
}

/// A filter with that many entries of the same size.
fn even(entries: usize) -> Vec<u8> {
    let size = 256 / entries;
    (0..entries).flat_map(|i| [(i * size) as u8, (i * size + size - 1) as u8, i as u8, !i as u8]).collect()
}

fn main() -> ExitCode {
    timing::status(bench())
}

fn bench() -> Result<(), ExitCode> {
    let repetitions = timing::repetitions("bench_filter", 15)?;
    let library = timing::linked(ffi::folder())?;
    println!("median of {repetitions} repetitions, in microseconds a text");
    println!("{:<9}{:>9}{:>12}{:>12}{:>10}{:>13}", "entries", "bytes", "lib", "rust", "lib/rust", "lib ns/byte");
    let sides: [&dyn Folder; 2] = [library, &Plain];
    for entries in [1, 8, 64] {
        let filter = even(entries);
        for size in SIZES {
            let mut random = Rng::new(7, 0);
            let text: Vec<u8> = (0..size).map(|_| random.below(256) as u8).collect();
            let mut tokens = [vec![0; 2 * size], vec![0; 2 * size]];
            let answers = [0, 1].map(|side| sides[side].fold(&filter, &text, &mut tokens[side]));
            if answers[0] != answers[1] || tokens[0] != tokens[1] {
                eprintln!("{entries} entries, {size} bytes: the two differ: {answers:?}");
                return Err(ExitCode::FAILURE);
            }
            let [ours, rust] = timing::calls(repetitions, LEAST, |side| {
                black_box(sides[side].fold(black_box(&filter), black_box(&text), black_box(&mut tokens[side])));
            });
            let per_byte = ours * 1e9 / size as f64;
            println!("{entries:<9}{size:>9}{:>12.2}{:>12.2}{:>10.2}{per_byte:>13.2}", ours * 1e6, rust * 1e6, ours / rust);
        }
    }
    Ok(())
}
