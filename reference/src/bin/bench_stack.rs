//! The stack of every entry of the three libraries, measured with a painted stack, against the figures that the headers tell.
//!
//! bench_stack HEADER..
//!
//! A line for each entry: its name, the most bytes that a call took, the header's figure (`SST_STACK_..`), and what it was
//! called with. Fails where an entry took more than its header tells, and where a header tells nothing of an entry.
#![forbid(unsafe_code)]

use std::collections::BTreeMap;
use std::hint::black_box;
use std::process::ExitCode;

use reference::carry::Carrier;
use reference::crowded::{self, CROWDED};
use reference::ffi;
use reference::figures::{FIGURES_BYTES, Figures, ROW_BYTES, Sums};
use reference::files::Files;
use reference::parts::Parts;
use reference::parts::split::SplitWords;
use reference::processor::{Answer, MAX_TABLE, process};
use reference::programs;
use reference::quiet::Measurer;
use reference::rights::Rights;
use reference::screen::{SCREEN_BYTES, Screens};
use reference::side::{Folder, Inputs, Reference, Side};
use reference::stack::{self, Named};
use reference::tables::bytes;
use reference::texts::Seed;
use reference::timing;
use reference::walker::Walk;
use reference::works::works;

/// More than the largest file.
const ROOM: usize = 2 * 4_200;
/// The painted stack: much more than an entry should need.
const STACK: usize = 1 << 19;
/// Room for any object of the texts here.
const OBJECT: usize = 1 << 17;
/// Of the small texts, which are the last, one in so many is enough here.
const SMALL: usize = 400;
const ONE_IN: usize = 8;
/// The most rules of a program.
const RULES: usize = 128;
/// Steps of a call: some thousands come to every instruction of a table.
const STEPS: u64 = 5_000;

/// The library by its traits.
struct Library {
    walker: &'static (dyn Side + Sync),
    processor: &'static (dyn Measurer + Sync),
    files: &'static (dyn Files + Sync),
    rights: &'static (dyn Rights + Sync),
    folder: &'static (dyn Folder + Sync),
    screens: &'static (dyn Screens + Sync),
    figures: &'static (dyn Figures + Sync),
    carrier: &'static (dyn Carrier + Sync),
    parts: &'static (dyn Parts + Sync),
}

impl Library {
    fn linked() -> Result<Library, ExitCode> {
        Ok(Library {
            walker: timing::linked(ffi::library())?,
            processor: timing::linked(ffi::measurer())?,
            files: timing::linked(ffi::files())?,
            rights: timing::linked(ffi::rights())?,
            folder: timing::linked(ffi::folder())?,
            screens: timing::linked(ffi::screens())?,
            figures: timing::linked(ffi::figures())?,
            carrier: timing::linked(ffi::carrier())?,
            parts: timing::linked(ffi::parts())?,
        })
    }
}

/// The most that each entry took, and what it was called with.
#[derive(Default)]
struct Most(BTreeMap<&'static str, (u64, String)>);

impl Most {
    /// Calls an entry; the first time once before it is measured, as what is called then may be bound on the way.
    fn call(&mut self, entry: &'static str, with: &str, mut call: impl FnMut() + Send) -> Result<(), ExitCode> {
        if !self.0.contains_key(entry) {
            call();
        }
        let Some(used) = ffi::stack_used(call, STACK) else {
            println!("the stack could not be measured");
            return Err(ExitCode::FAILURE);
        };
        let most = self.0.entry(entry).or_default();
        if used > most.0 {
            *most = (used, with.to_string());
        }
        Ok(())
    }
}

/// A walk with 64 return locations, all in the first rule.
fn deep() -> Walk {
    let mut walk = Walk::mending(0);
    walk.held = walk.returns.len();
    walk.returns.fill(1);
    walk
}

/// The entries that translate a text.
fn translate(most: &mut Most, library: &Library, (name, text): &Named) -> Result<(), ExitCode> {
    let (mut table, mut rows) = (vec![0; 2 * MAX_TABLE], vec![0; RULES * ROW_BYTES]);
    most.call("sst_process", name, || _ = black_box(library.processor.measure(text, &mut table)))?;
    most.call("sst_rules", name, || _ = black_box(library.figures.rules(text, &mut rows)))?;
    let walk = deep().encode();
    most.call("sst_carry", name, || _ = black_box(library.carrier.carry(text, text, &mut walk.clone())))
}

/// The entries for parts: a text in up to three of them.
fn link(most: &mut Most, library: &Library, (name, text): &Named, seed: u64) -> Result<(), ExitCode> {
    let (mut seed, mut table, mut object) = (Seed::new(seed), vec![0; 2 * MAX_TABLE], vec![0; OBJECT]);
    let split = SplitWords::of(&mut seed, text, 3).joined(&mut seed);
    let mut objects = Vec::new();
    for part in split.texts() {
        most.call("sst_part", name, || _ = black_box(library.parts.part(&split.common, part, &mut object)))?;
        let words = library.parts.part(&split.common, part, &mut object).words as usize;
        objects.extend_from_slice(&object[..2 * words]);
    }
    most.call("sst_link", name, || _ = black_box(library.parts.link(&split.common, &objects, &mut table)))
}

/// Tables of ordinary programs, and crowded ones.
fn tables() -> Vec<(String, Vec<u16>)> {
    let programs = (0..8).filter_map(|seed| match process(&programs::typical(&mut Seed::new(seed), 32_768).text, MAX_TABLE) {
        Answer::Accepted { table, .. } => Some((format!("program {seed}"), table)),
        Answer::Refused { .. } => None,
    });
    let crowded = CROWDED.iter().enumerate().map(|(sort, name)| (name.to_string(), crowded::crowded(sort)));
    programs.chain(crowded).collect()
}

/// The entries for table files and rights.
fn load(most: &mut Most, library: &Library, name: &str, table: &[u16]) -> Result<(), ExitCode> {
    let (table, mut file, mut lent) = (bytes(table), vec![0; ROOM], vec![0; ROOM]);
    most.call("sst_write_file", name, || _ = black_box(library.files.write(&table, 1, &mut lent)))?;
    let words = Reference.write(&table, 1, &mut file).words as usize;
    file.truncate(2 * words);
    most.call("sst_load", name, || _ = black_box(library.files.load(&file, &mut lent)))?;
    for set in [vec![255; 128], vec![]] {
        most.call("sst_admit", name, || _ = black_box(library.rights.admit(&table, &set)))?;
        most.call("sst_load_admitted", name, || _ = black_box(library.rights.load_admitted(&file, &set, &mut lent)))?;
    }
    Ok(())
}

/// The entries for walks, two books and figures.
fn walk(most: &mut Most, library: &Library, name: &str, inputs: Inputs) -> Result<(), ExitCode> {
    let (mut events, mut screen) = (vec![0; 6 * STEPS as usize], vec![0; SCREEN_BYTES]);
    for start in [Walk::mending(3), deep()] {
        let start = start.encode();
        most.call("sst_whole", name, || {
            _ = black_box(library.walker.whole(inputs, STEPS, &mut start.clone(), &mut events));
        })?;
        most.call("sst_paused", name, || {
            _ = black_box(library.walker.paused(inputs, 0, 0, STEPS, &mut start.clone(), &mut events));
        })?;
    }
    Reference.screen_fresh(&mut screen, [3, 0]);
    Reference.refill(&mut screen, 0, STEPS);
    most.call("sst_turn_whole", name, || {
        _ = black_box(library.screens.turn_whole(inputs, 0, &mut screen.clone(), &mut events));
    })?;
    most.call("sst_turn_paused", name, || {
        _ = black_box(library.screens.turn_paused(inputs, 0, 0, 0, &mut screen.clone(), &mut events));
    })?;
    // Empty figures, and figures that the book could pass 64 bits with, for which it is walked twice.
    for mut figures in [vec![0; FIGURES_BYTES], Sums::made_up(&[(1, u64::MAX - STEPS / 2)], 1).encode()] {
        most.call("sst_add_book", name, || {
            _ = black_box(library.figures.add_book(inputs, STEPS, 3, &mut figures, &mut events));
        })?;
    }
    Ok(())
}

/// The entries that do one thing, whatever they are given.
fn small(most: &mut Most, library: &Library) -> Result<(), ExitCode> {
    let (mut screen, figures, rows) = (vec![0; SCREEN_BYTES], vec![0; FIGURES_BYTES], vec![0; RULES * ROW_BYTES]);
    let (walker, screens, walk) = (library.walker, library.screens, deep().encode());
    let mut fresh = walk;
    most.call("sst_fresh", "a walk", || _ = black_box(walker.fresh(&mut fresh, 3)))?;
    most.call("sst_phase", "a walk", || _ = black_box(walker.phase(&walk)))?;
    most.call("sst_reason", "a walk", || _ = black_box(walker.reason(&walk)))?;
    most.call("sst_location", "a walk", || _ = black_box(walker.location(&walk)))?;
    most.call("sst_read", "a walk", || _ = black_box(walker.read(&walk)))?;
    most.call("sst_used", "a walk", || _ = black_box(walker.used(&walk)))?;
    most.call("sst_allowance", "a walk", || _ = black_box(walker.allowance(&walk)))?;
    most.call("sst_screen_fresh", "a screen", || _ = black_box(screens.screen_fresh(&mut screen, [3, 4])))?;
    most.call("sst_refill", "a screen", || _ = black_box(screens.refill(&mut screen, 1, STEPS)))?;
    most.call("sst_shelf", "no book", || _ = black_box(library.figures.shelf(&figures)))?;
    most.call("sst_rule_total", "no book", || _ = black_box(library.figures.rule_total(&figures, 1, 4_097)))?;
    most.call("sst_rules_total", "no book", || _ = black_box(library.figures.rules_total(&figures, &rows, 4_097)))
}

/// Filters of one entry and of 64, and one that is refused.
fn filter(most: &mut Most, library: &Library) -> Result<(), ExitCode> {
    let even = (0..64u8).flat_map(|entry| [4 * entry, 4 * entry + 3, 0, entry]).collect();
    let filters: [(&str, Vec<u8>); 3] = [("an entry", vec![0, 255, 0, 7]), ("64 entries", even), ("no entry", vec![])];
    let (text, mut tokens) = (vec![65; 4_096], vec![0; 2 * 4_096]);
    for (name, filter) in filters {
        most.call("sst_filter", name, || _ = black_box(library.folder.fold(&filter, &text, &mut tokens)))?;
    }
    Ok(())
}

fn measure(library: &Library) -> Result<Most, ExitCode> {
    let mut most = Most::default();
    let texts = stack::texts();
    let large = texts.len() - SMALL;
    for (number, text) in texts.iter().enumerate().filter(|(number, _)| *number < large || number % ONE_IN == 0) {
        translate(&mut most, library, text)?;
        link(&mut most, library, text, number as u64)?;
    }
    for (name, table) in tables() {
        load(&mut most, library, &name, &table)?;
        walk(&mut most, library, &name, Inputs { table: &bytes(&table), tokens: &[0; 64], answers: &[0; 64] })?;
    }
    for work in works() {
        walk(&mut most, library, work.name, Inputs { table: &work.table, tokens: &work.tokens, answers: &work.answers })?;
    }
    filter(&mut most, library)?;
    small(&mut most, library)?;
    Ok(most)
}

/// The figures of a header, by the entries' names.
fn told(header: &str) -> Result<BTreeMap<String, u64>, ExitCode> {
    let text = std::fs::read_to_string(header).map_err(|error| timing::no_use(&format!("{header}: {error}")))?;
    let figures = text.lines().filter_map(|line| {
        let (name, figure) = line.strip_prefix("#define SST_STACK_")?.split_once(' ')?;
        Some((format!("sst_{}", name.to_lowercase()), figure.split_whitespace().next()?.parse().ok()?))
    });
    Ok(figures.collect())
}

fn bench() -> Result<(), ExitCode> {
    let headers: Vec<String> = std::env::args().skip(1).collect();
    let library = Library::linked()?;
    let mut figures = BTreeMap::new();
    for header in &headers {
        figures.extend(told(header)?);
    }
    let mut good = true;
    for (entry, (used, with)) in &measure(&library)?.0 {
        let figure = figures.get(*entry).copied().unwrap_or(0);
        let enough = if *used <= figure { "" } else { ": MORE THAN THE HEADER TELLS" };
        println!("{entry:<18}{used:>8} of {figure:>7}, {with}{enough}");
        good &= *used <= figure;
    }
    if good { Ok(()) } else { Err(ExitCode::FAILURE) }
}

fn main() -> ExitCode {
    timing::status(bench())
}
