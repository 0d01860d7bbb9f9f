//! Times the library's carrying of a walk against its processing of the two texts.
//!
//! bench_carry [repetitions]
//!
//! A text is carried to itself, so that all its rules in progress are compared to their ends.
#![forbid(unsafe_code)]

use std::hint::black_box;
use std::process::ExitCode;

use reference::carry::Carrier;
use reference::ffi;
use reference::programs::{self, Text};
use reference::quiet::Measurer;
use reference::timing;
use reference::walker::Walk;

const LARGEST: usize = 2 * 4_096;
/// The seconds that one timing takes at least.
const LEAST: f64 = 2e-3;

/// The library's processor and its carrying.
type Library = (&'static (dyn Measurer + Sync), &'static (dyn Carrier + Sync));

/// As many calls as a table has room for, of rules that stand far behind and have long names that begin alike.
fn calls() -> Text {
    let rules = (0..120).map(|n| format!("{}{n:03}: ;\n", "r".repeat(29))).collect::<String>();
    let called = (0..1_900).map(|n| format!("@{}{:03} ", "r".repeat(29), n % 120));
    let mut text = String::from("rules M: ");
    called
        .take_while(|call| (text.len() + call.len() + rules.len() < 32_000).then(|| text.push_str(call)).is_some())
        .for_each(drop);
    text.push_str(&format!(";\n{rules}end\n"));
    Text { name: "calls", text: text.into_bytes() }
}

/// A walk with 64 return locations, all in the first rule.
fn deep() -> Walk {
    let mut walk = Walk::mending(0);
    walk.held = walk.returns.len();
    walk.returns.fill(1);
    walk
}

fn line((processor, carrier): Library, Text { name, text }: &Text, walk: &Walk, repetitions: usize) {
    let (mut table, mut bytes) = (vec![0; LARGEST], walk.encode());
    let number = carrier.carry(text, text, &mut bytes).number;
    let [carries, processes] = timing::calls(repetitions, LEAST, |way| match way {
        0 => _ = black_box(carrier.carry(black_box(text), black_box(text), black_box(&mut bytes))),
        _ => _ = black_box(processor.measure(black_box(text), black_box(&mut table))),
    });
    let [micros, ratio] = [carries * 1e6, carries / (2.0 * processes)];
    println!("{name:<12}{:>7}{:>9}{number:>8}{micros:>12.1}{ratio:>10.2}", text.len(), walk.held);
}

fn times(library: Library, repetitions: usize) {
    println!("carrying a walk from a text to itself, over twice the time of processing it; median of {repetitions} repetitions");
    println!("{:<12}{:>7}{:>9}{:>8}{:>12}{:>10}", "text", "bytes", "pending", "number", "microsec.", "ratio");
    let typical = programs::timed().into_iter().next().into_iter().flatten();
    for text in typical.chain([calls()]) {
        for walk in [Walk::mending(0), deep()] {
            line(library, &text, &walk, repetitions);
        }
    }
}

fn bench() -> Result<(), ExitCode> {
    let library = (timing::linked(ffi::measurer())?, timing::linked(ffi::carrier())?);
    times(library, timing::repetitions("bench_carry", 15)?);
    Ok(())
}

fn main() -> ExitCode {
    timing::status(bench())
}
