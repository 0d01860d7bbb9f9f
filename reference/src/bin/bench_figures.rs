//! Times the library's figures over a shelf: adding a book against the whole call alone, and against plain figures in this file.
//!
//! bench_figures [repetitions]
//!
//! Each repetition walks each book with each in turn, on the same bytes. Reported is the median of the processor time.
#![forbid(unsafe_code)]

use std::hint::black_box;
use std::process::ExitCode;

use reference::ffi;
use reference::figures::{BOOKS, COVERAGE, FIGURES_BYTES, Figures, NUMBERS, PASSES, TOTAL};
use reference::side::{Inputs, REFUSAL, Reference, Side};
use reference::timing;
use reference::walker::{Done, MAX_TABLE, Walk, visit};
use reference::works::{Work, works};

/// Adds a book in the plain way: the numbers are read and tested, the walk counts as it goes, and all is written back where no number passes 64 bits.
fn plain(work: &Work, figures: &mut [u8], events: &mut [u8]) -> Done {
    if figures.len() != FIGURES_BYTES {
        return REFUSAL;
    }
    let mut numbers: Vec<u64> = figures.as_chunks().0.iter().map(|number| u64::from_be_bytes(*number)).collect();
    if !fits(&numbers) {
        return REFUSAL;
    }
    let mut written = events.to_vec();
    let done = visit(&work.table, &work.tokens, &work.answers, u64::MAX, 0, &mut written, |location| {
        let at = location - 1;
        numbers[at] = numbers[at].wrapping_add(1);
        numbers[COVERAGE + at / 64] |= 1 << (at % 64);
    });
    let sums = (numbers[BOOKS].checked_add(1), numbers[TOTAL].checked_add(done.steps));
    let (Some(books), Some(total)) = sums else { return Done { number: PASSES, ..REFUSAL } };
    (numbers[BOOKS], numbers[TOTAL]) = (books, total);
    for (bytes, number) in figures.as_chunks_mut().0.iter_mut().zip(numbers) {
        *bytes = number.to_be_bytes();
    }
    events.copy_from_slice(&written);
    done
}

/// Whether the parts of figures fit together.
fn fits(numbers: &[u64]) -> bool {
    let (counts, rest) = numbers.split_at(MAX_TABLE);
    let bits = |counts: &[u64]| counts.iter().rev().fold(0, |bits, count| bits << 1 | u64::from(*count > 0));
    let sum = counts.iter().try_fold(0u64, |sum, count| sum.checked_add(*count));
    let covered = counts.chunks(64).zip(rest).all(|(counts, word)| bits(counts) == *word);
    numbers.len() == NUMBERS && covered && sum == Some(numbers[TOTAL]) && (numbers[BOOKS] > 0 || numbers[TOTAL] == 0)
}

/// What is timed: the library's call alone, its figures, the plain ones.
const NAMES: [&str; 3] = ["lib whole", "lib figures", "plain figures"];

/// One of them.
fn add(which: usize, work: &Work, figures: &mut [u8], events: &mut [u8]) -> Done {
    let inputs = Inputs { table: &work.table, tokens: &work.tokens, answers: &work.answers };
    match which {
        0 => {
            let walker: &dyn Side = ffi::library().unwrap_or(&Reference);
            walker.whole(inputs, u64::MAX, &mut Walk::fresh().encode(), events)
        }
        1 => {
            let adder: &dyn Figures = ffi::figures().unwrap_or(&Reference);
            adder.add_book(inputs, u64::MAX, 0, figures, events)
        }
        _ => plain(work, figures, events),
    }
}

fn main() -> ExitCode {
    timing::status(bench())
}

fn bench() -> Result<(), ExitCode> {
    let repetitions = timing::repetitions("bench_figures", 31)?;
    println!("median of {repetitions} repetitions{}", if ffi::figures().is_none() { ", this crate for the library" } else { "" });
    for work in works() {
        // A few events a token.
        let mut events = vec![0u8; work.tokens.len() * 12 + 6];
        let (mut wanted, mut sums) = (events.clone(), vec![0; FIGURES_BYTES]);
        let first = plain(&work, &mut sums, &mut wanted);
        println!("{}: {} steps, {} events, ends with {}", work.name, first.steps, first.written, first.number);
        let medians = timing::in_turn(NAMES.len(), repetitions, |which| {
            let mut figures = vec![0; FIGURES_BYTES];
            events.fill(0);
            let (done, seconds) =
                timing::timed(|| add(black_box(which), black_box(&work), black_box(&mut figures), black_box(&mut events)));
            let same = done == first && events == wanted && (which == 0 || figures == sums);
            if !same {
                println!("  {} differs: {done:?}, wanted {first:?}", NAMES[which]);
            }
            same.then_some(seconds)
        });
        let each: Vec<f64> = medians.ok_or(ExitCode::FAILURE)?.iter().map(|median| median / first.steps as f64).collect();
        for (name, time) in NAMES.iter().zip(&each) {
            println!("  {name:<14}{:8.2} ns a step", time * 1e9);
        }
        println!("  figures over the call alone: {:.2}, over the plain ones: {:.2}", each[1] / each[0], each[1] / each[2]);
    }
    Ok(())
}
