//! Times the library's processor against the one of this crate, both with the figure Q of the program, and measures the stack that the
//! library's needs. This crate's processor is timed without the figure too.
//!
//! bench_texts [repetitions]
//!
//! Each repetition processes each text in each way, in turn, into the same buffer. Reported is the median of the processor time.
#![forbid(unsafe_code)]

use std::hint::black_box;
use std::process::ExitCode;

use reference::delays;
use reference::ffi;
use reference::programs::{self, CHOSEN, PLAIN, SIZES, Text};
use reference::quiet::Measurer;
use reference::side::{Processed, Processor, Reference};
use reference::stack;
use reference::timing;

const LARGEST: usize = 2 * 4_096;
/// The seconds that one timing of one side takes at least.
const LEAST: f64 = 2e-3;

/// A text's name and bytes, with the times of the library and of this crate, and of this crate without the figure Q.
struct Times {
    name: String,
    ours: f64,
    rust: f64,
    without: f64,
}

impl Times {
    fn take(name: String, library: &dyn Measurer, text: &[u8], repetitions: usize) -> Times {
        let mut table = vec![0; LARGEST];
        let [ours, rust, without] = timing::calls(repetitions, LEAST, |way| match way {
            0 => _ = black_box(library.measure(black_box(text), black_box(&mut table))),
            1 => _ = black_box(Reference.measure(black_box(text), black_box(&mut table))),
            _ => _ = black_box(Reference.process(black_box(text), black_box(&mut table))),
        });
        Times { name, ours, rust, without }
    }

    fn ratio(&self) -> f64 {
        self.ours / self.rust
    }

    fn ratio_without(&self) -> f64 {
        self.ours / self.without
    }
}

/// Both sides' answer to a text; the status to end with where they differ.
fn answer(library: &dyn Measurer, Text { name, text }: &Text) -> Result<Processed, ExitCode> {
    let mut tables = [vec![0; LARGEST], vec![0; LARGEST]];
    let answers = [library.measure(text, &mut tables[0]), Reference.measure(text, &mut tables[1])];
    if answers[0] == answers[1] && tables[0] == tables[1] {
        return Ok(answers[0].processed);
    }
    eprintln!("{name} of {} bytes: the two differ: {answers:?}", text.len());
    Err(ExitCode::FAILURE)
}

/// Times a text and prints its line.
fn line(library: &dyn Measurer, text: &Text, repetitions: usize) -> Result<Times, ExitCode> {
    let Processed { number, words, .. } = answer(library, text)?;
    let (name, bytes) = (text.name, text.text.len());
    let times = Times::take(format!("{name} of {bytes} bytes"), library, &text.text, repetitions);
    let words = if number == 0 { words.to_string() } else { format!("({number})") };
    let [ours, rust, without] = [times.ours, times.rust, times.without].map(|seconds| seconds * 1e6);
    let (ratio, ratio_without) = (times.ratio(), times.ratio_without());
    let per_byte = ours * 1e3 / bytes as f64;
    println!(
        "{name:<17}{bytes:>7}{words:>7}{ours:>12.1}{rust:>12.1}{ratio:>10.2}{without:>12.1}{ratio_without:>10.2}{per_byte:>13.1}"
    );
    Ok(times)
}

/// The most by some measure, and the text's name.
fn most(all: &[Vec<Times>], by: fn(&Times) -> f64) -> (f64, &str) {
    let all = all.iter().flatten().map(|times| (by(times), times.name.as_str()));
    all.max_by(|a, b| a.0.total_cmp(&b.0)).unwrap_or((f64::NAN, "none"))
}

/// Times the texts made to keep a processor busy, and prints the most over the typical text of their size. scripts/text-costs holds them to a bound, by
/// instructions.
fn slowest_over_typical(library: &dyn Measurer, all: &[Vec<Times>], repetitions: usize) -> Result<(), ExitCode> {
    let typical = all[0][SIZES.len() - 1].ours;
    let slow = delays::all().iter().map(|text| line(library, text, repetitions)).collect::<Result<Vec<_>, _>>()?;
    let last = all.iter().map(|sizes| &sizes[SIZES.len() - 1]);
    let worst = last.chain(&slow).max_by(|a, b| a.ours.total_cmp(&b.ours));
    if let Some(worst) = worst {
        println!("slowest over the typical text of 32 KB: {:.1}, {}", worst.ours / typical, worst.name);
    }
    Ok(())
}

fn main() -> ExitCode {
    timing::status(bench())
}

fn bench() -> Result<(), ExitCode> {
    let repetitions = timing::repetitions("bench_texts", 15)?;
    let library = timing::linked(ffi::measurer())?;
    let works = programs::timed();
    println!(
        "from a text to its table, verdict and figure Q, by the library and by this crate; `no Q` is this crate without the figure,"
    );
    println!("which the library always finds; median of {repetitions} repetitions, in microseconds a text");
    println!(
        "{:<17}{:>7}{:>7}{:>12}{:>12}{:>10}{:>12}{:>10}{:>13}",
        "text", "bytes", "words", "lib", "rust", "lib/rust", "no Q", "lib/no Q", "lib ns/byte"
    );
    let mut all: Vec<Vec<Times>> = Vec::new();
    for sizes in &works {
        all.push(sizes.iter().map(|text| line(library, text, repetitions)).collect::<Result<_, _>>()?);
    }
    let (ratio, name) = most(&all, Times::ratio);
    println!("largest ratio: {ratio:.2}, {name}");
    let (ratio, name) = most(&all, Times::ratio_without);
    println!("largest ratio to this crate without the figure: {ratio:.2}, {name}");
    let (slowest, name) = most(&all, |times| times.ours);
    println!("slowest of the library: {:.2} ms, {name}", slowest * 1e3);
    slowest_over_typical(library, &all, repetitions)?;
    println!("growth of the time from 1 to 8 KB, from 8 to 32 KB (8 and 4 would be in proportion)");
    for (sizes, each) in works.iter().zip(&all) {
        let by = |side: fn(&Times) -> f64, from: usize| side(&each[from + 1]) / side(&each[from]);
        let [ours, rust] = [|times: &Times| times.ours, |times: &Times| times.rust];
        println!(
            "{:<12} lib {:6.1}{:6.1}   rust {:6.1}{:6.1}",
            sizes[0].name,
            by(ours, 0),
            by(ours, 1),
            by(rust, 0),
            by(rust, 1)
        );
    }
    // The typical text stands before the hard ones; the last size is the largest.
    let largest = |sort: usize| all[sort + 1][SIZES.len() - 1].ours;
    let [plain, names, strings] = [PLAIN, CHOSEN, CHOSEN + 1].map(largest);
    println!("chosen names over plain ones: {:.1}; chosen names and strings: {:.1}", names / plain, strings / plain);
    let (texts, mut table) = (stack::texts(), vec![0; LARGEST]);
    match stack::deepest(&texts, |text| _ = black_box(library.measure(text, &mut table))) {
        Some((used, name)) => println!("largest stack of the library: {used} bytes, {name}"),
        None => println!("the stack could not be measured"),
    }
    Ok(())
}
