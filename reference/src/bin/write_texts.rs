//! Writes the texts of `bench_texts` as files, for scripts/bench-before and scripts/text-costs; with a size those of that size alone.
//!
//! write_texts FOLDER [BYTES]
#![forbid(unsafe_code)]

use std::process::ExitCode;

use reference::{delays, programs};

fn main() -> ExitCode {
    let Some(folder) = std::env::args().nth(1) else {
        eprintln!("write_texts FOLDER [BYTES]");
        return ExitCode::from(2);
    };
    let bytes = std::env::args().nth(2).and_then(|bytes| bytes.parse::<usize>().ok());
    for text in programs::timed().into_iter().flatten().chain(delays::all()) {
        if bytes.is_some_and(|bytes| bytes != text.text.len()) {
            continue;
        }
        let file = format!("{folder}/{}-{}.ssl", text.name.replace(", ", "-").replace(' ', "-"), text.text.len());
        if let Err(error) = std::fs::write(&file, &text.text) {
            eprintln!("{file}: {error}");
            return ExitCode::FAILURE;
        }
    }
    ExitCode::SUCCESS
}
