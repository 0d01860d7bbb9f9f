//! What benchmarks share: the command line, and medians of processor times taken in turn.

use crate::ffi;
use std::process::ExitCode;

/// The repetitions that the command line `NAME [repetitions]` asks for: `usual` where it asks for none. The status to end with where it is
/// no such line.
pub fn repetitions(name: &str, usual: usize) -> Result<usize, ExitCode> {
    match std::env::args().nth(1).map(|argument| argument.parse::<usize>()) {
        None => Ok(usual),
        Some(Ok(repetitions)) if repetitions > 0 => Ok(repetitions),
        Some(_) => Err(no_use(&format!("{name} [repetitions, from 1]"))),
    }
}

/// The library, or the status to end with where it is not linked.
pub fn linked<T>(library: Option<T>) -> Result<T, ExitCode> {
    library.ok_or_else(|| no_use("built without the library"))
}

/// The answer to a call that cannot be done.
pub fn no_use(message: &str) -> ExitCode {
    eprintln!("{message}");
    ExitCode::from(2)
}

/// The status of a benchmark that may end early.
pub fn status(ended: Result<(), ExitCode>) -> ExitCode {
    ended.err().unwrap_or(ExitCode::SUCCESS)
}

fn median(times: &mut [f64]) -> f64 {
    times.sort_by(f64::total_cmp);
    times.get(times.len() / 2).copied().unwrap_or(f64::NAN)
}

/// What a function answers, and the seconds of processor time that it takes.
pub fn timed<A>(function: impl FnOnce() -> A) -> (A, f64) {
    let start = ffi::cpu_seconds();
    let answer = function();
    (answer, ffi::cpu_seconds() - start)
}

/// The median seconds of each of so many ways to do a thing, in turn, another one going first each time. A way that fails ends it.
pub fn in_turn(ways: usize, repetitions: usize, mut way: impl FnMut(usize) -> Option<f64>) -> Option<Vec<f64>> {
    let mut times = vec![Vec::new(); ways];
    for turn in 0..repetitions {
        for k in 0..ways {
            let k = (k + turn) % ways;
            times[k].push(way(k)?);
        }
    }
    Some(times.iter_mut().map(|times| median(times)).collect())
}

/// The median seconds of one call in each of N ways, in turn. A timing is of as many calls as take `least` seconds.
pub fn calls<const N: usize>(repetitions: usize, least: f64, mut call: impl FnMut(usize)) -> [f64; N] {
    let mut over = |way: usize, count: usize| timed(|| (0..count).for_each(|_| call(way))).1;
    let mut counts = [1; N];
    for (way, count) in counts.iter_mut().enumerate() {
        while over(way, *count) < least {
            *count *= 2;
        }
    }
    let mut times = [const { Vec::new() }; N];
    for _ in 0..repetitions {
        for (way, count) in counts.into_iter().enumerate() {
            times[way].push(over(way, count) / count as f64);
        }
    }
    times.map(|mut times| median(&mut times))
}
