//! Times the walkers on four tables: the library (where it is linked), the walker of this crate and the plain C walker.
//!
//! bench [repetitions [budget of a call]]
//!
//! Each repetition walks each table once with each walker, on the same bytes, in turn. Reported is the median of
//! the processor time. How the code happens to fall changes the ratios: `scripts/bench-spread` runs several builds.
#![forbid(unsafe_code)]

use std::hint::black_box;
use std::process::ExitCode;

use reference::ffi;
use reference::side::{Inputs, Reference, Side};
use reference::timing;
use reference::walker::{WALK_BYTES, Walk};
use reference::works::{Work, works};

/// What a walker leaves of a walk, to be the same for all.
#[derive(PartialEq, Debug)]
struct End {
    number: u16,
    steps: u64,
    written: u64,
    walk: [u8; WALK_BYTES],
}

/// Walks to the end, each call with this budget and the whole buffer.
fn walk(side: &dyn Side, work: &Work, budget: u64, events: &mut [u8]) -> End {
    let inputs = Inputs { table: &work.table, tokens: &work.tokens, answers: &work.answers };
    let mut end = End { number: 36, steps: 0, written: 0, walk: Walk::fresh().encode() };
    while matches!(end.number, 35 | 36) {
        let done = side.whole(inputs, budget, &mut end.walk, events);
        end.number = done.number;
        end.steps = end.steps.wrapping_add(done.steps);
        end.written = end.written.wrapping_add(done.written);
        if done.steps == 0 {
            break;
        }
    }
    end
}

/// The repetitions, and the budget of a call.
fn arguments() -> Result<(u64, u64), ExitCode> {
    let mut numbers = std::env::args().skip(1).map(|argument| argument.parse::<u64>());
    match (numbers.next(), numbers.next()) {
        (None, _) => Ok((31, u64::MAX)),
        (Some(Ok(repetitions)), None) => Ok((repetitions, u64::MAX)),
        (Some(Ok(repetitions)), Some(Ok(budget))) if budget > 0 => Ok((repetitions, budget)),
        _ => Err(timing::no_use("bench [repetitions [budget of a call, from 1]]")),
    }
}

fn main() -> ExitCode {
    timing::status(bench())
}

fn bench() -> Result<(), ExitCode> {
    let (repetitions, budget) = arguments()?;
    let mut sides: Vec<&(dyn Side + Sync)> = vec![&Reference, &ffi::Plain];
    sides.extend(ffi::library());
    println!("median of {repetitions} repetitions, budget of a call {budget}");
    for work in works() {
        // A few events a token.
        let mut events = vec![0u8; work.tokens.len() * 12 + 6];
        let mut wanted = vec![0u8; events.len()];
        let first = walk(&Reference, &work, budget, &mut wanted);
        println!(
            "{}: table of {} words, {} tokens, {} steps, {} events, ends with {}",
            work.name,
            work.table.len() / 2,
            work.tokens.len() / 2,
            first.steps,
            first.written,
            first.number
        );
        let medians = timing::in_turn(sides.len(), repetitions as usize, |k| {
            events.fill(0);
            let (end, seconds) = timing::timed(|| walk(black_box(sides[k]), black_box(&work), budget, black_box(&mut events)));
            let same = end == first && events == wanted;
            if !same {
                println!("  {} differs: {end:?}, wanted {first:?}", sides[k].name());
            }
            same.then_some(seconds)
        });
        let each: Vec<f64> = medians.ok_or(ExitCode::FAILURE)?.iter().map(|median| median / first.steps as f64).collect();
        for (side, time) in sides.iter().zip(&each) {
            println!("  {:<5}{:8.2} ns a step {:10.1} million steps a second", side.name(), time * 1e9, 1e-6 / time);
        }
        for (mine, other) in [(0, 1), (2, 0), (2, 1)] {
            if mine < sides.len() {
                println!("  {} over {}: {:.2}", sides[mine].name(), sides[other].name(), each[mine] / each[other]);
            }
        }
    }
    Ok(())
}
