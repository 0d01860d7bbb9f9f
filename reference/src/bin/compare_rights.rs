//! Compares the library's admission of tables with the one of this crate, and walks what is admitted.
//!
//! compare_rights [--exact] [--trace] [seeds [first seed]]
//!
//! Built without the library, this crate stands on both sides, and the plain C walker walks.
#![forbid(unsafe_code)]

use std::process::ExitCode;

use reference::crowded;
use reference::ffi;
use reference::files::{Files, Loaded, words};
use reference::harness::{self, Compares, Group, Lent, Tally};
use reference::random::{self, Rng};
use reference::rights::{Admitted, Rights, granted};
use reference::side::{Processor, Reference, Side};
use reference::tables::bytes;

const SEEDS: u64 = 1_000;
/// The bytes that name all operations.
const ALL: usize = 128;
/// The calls of a walk over a table that was admitted.
const CALLS: usize = 10;

struct Harness {
    other: &'static dyn Rights,
    processor: &'static dyn Processor,
    walker: &'static dyn Side,
    exact: bool,
    tally: Tally,
}

impl Harness {
    /// Compares one admission; what this crate answers.
    fn admit(&mut self, rng: &mut Rng, table: &[u8], set: &[u8]) -> Admitted {
        let (table, set) = (Lent::new(rng, table, self.exact), Lent::new(rng, set, self.exact));
        let done = Reference.admit(table.bytes(), set.bytes());
        let theirs = self.other.admit(table.bytes(), set.bytes());
        self.tally.expect(done == theirs && table.kept() && set.kept(), || {
            format!("  rust:  {done:?}\n  other: {theirs:?}\n  table {:?}\n  set {:?}", words(table.bytes()), set.bytes())
        });
        self.tally.met(format!("admit {}", done.number));
        done
    }

    /// Such a call, which must be answered so.
    fn answers(&mut self, rng: &mut Rng, table: &[u16], set: &[u8], wanted: Admitted) {
        let done = self.admit(rng, &bytes(table), set);
        self.tally.expect(done == wanted, || format!("  {done:?}, not {wanted:?}\n  table {table:?}\n  set {set:?}"));
    }

    /// Compares one loading with admission.
    fn load(&mut self, rng: &mut Rng, file: &[u8], set: &[u8], size: usize) -> (Loaded, u64) {
        let (file, set) = (Lent::new(rng, file, self.exact), Lent::new(rng, set, self.exact));
        let mut table = Lent::random(rng, size, self.exact);
        let given = || format!("  file {:?}\n  set {:?}", words(file.bytes()), set.bytes());
        let done = self.tally.both(
            [self.other, &Reference],
            &[&file, &set],
            &mut table,
            |side, table| side.load_admitted(file.bytes(), set.bytes(), table),
            given,
        );
        self.tally.met(format!("load {}", done.0.number));
        done
    }

    /// Walks a table that was admitted: no event of an operation outside the set.
    fn walk(&mut self, rng: &mut Rng, table: &[u8], set: &[u8]) {
        let granted = granted(set);
        let (number, events) = harness::walk(rng, self.walker, table, &[0, 0, 2, 30], CALLS);
        for event in events.iter().filter(|event| event[0] == 3) {
            let fine = granted.contains(&event[1]);
            self.tally.expect(fine, || format!("  the event {event:?} is written\n  table {:?}\n  set {set:?}", words(table)));
            self.tally.met("operation walked");
        }
        self.tally.expect(number != 37, || format!("  a walk over an admitted table gives 37\n  table {:?}", words(table)));
    }
}

/// The set with all of these operations.
fn set_of(operations: &[u16]) -> Vec<u8> {
    let mut set = vec![0; ALL];
    for operation in operations {
        let bit = usize::from(*operation) - 256;
        set[bit / 8] |= 128 >> (bit % 8);
    }
    set
}

/// A set of any length: full, empty, dense, or of few bits.
fn any_set(rng: &mut Rng) -> Vec<u8> {
    let size = if rng.once_in(2) { ALL } else { rng.below(ALL + 20) };
    let sort = rng.below(5);
    (0..size)
        .map(|_| match sort {
            0 => 255,
            1 => 0,
            2 => 255 ^ (1 << rng.below(8)),
            3 => rng.draw() as u8 | rng.draw() as u8 | rng.draw() as u8,
            _ => rng.draw() as u8,
        })
        .collect()
}

/// Operations of all four kinds, with choices, calls and cycles around them.
const TEXT: &str = "input: a b; type t: v w; mechanism m: \
    u0 u1 u2 p0(t) p1(t) p2(t) c0>>t c1>>t c2>>t d0(t)>>t d1(t)>>t d2(t)>>t; \
    rules M: { u0 [c0 | v: p0(w) @N | w: > ] } u2; \
    N: p2(v) [d0(w) | v: u1 | *: [d2(v) | w: @K ] ] [ | a: p1(v) @M | b: ]; \
    K: [c1 | w: | v: [c2 | v: u0 | *: [d1(w) | v: ] ] ] u1; end";

/// Each operation of a program withheld in turn.
fn withheld(h: &mut Harness, rng: &mut Rng) {
    let mut table = vec![0; 2 * 4_096];
    let done = h.processor.process(TEXT.as_bytes(), &mut table);
    table.truncate(2 * done.words as usize);
    h.tally.expect(done.number == 0, || format!("  {done:?} for {TEXT}"));
    let table = words(&table);
    let all: Vec<u16> = [256, 512, 768, 1_024].into_iter().flat_map(|first| first..first + 3).collect();
    h.answers(rng, &table, &set_of(&all), Admitted { number: 0, location: 0 });
    for operation in &all {
        let rest: Vec<u16> = all.iter().copied().filter(|other| other != operation).collect();
        // No operand is so large: the first word of that number is the operation.
        let at = table.iter().position(|word| word == operation).map_or(0, |at| at as u64 + 1);
        h.answers(rng, &table, &set_of(&rest), Admitted { number: 48, location: at });
        h.tally.met(format!("withheld {operation}"));
    }
    // Two of them: the lower location is named.
    let (one, other) = (rng.pick(&all), rng.pick(&all));
    let rest: Vec<u16> = all.iter().copied().filter(|operation| ![one, other].contains(operation)).collect();
    let at = table.iter().position(|word| [one, other].contains(word)).map_or(0, |at| at as u64 + 1);
    h.answers(rng, &table, &set_of(&rest), Admitted { number: 48, location: at });
}

/// A full set cut at every byte, and with any bytes behind its end.
fn cut_sets(h: &mut Harness, rng: &mut Rng) {
    let operation = 256 + rng.below(1_024) as u16;
    let table = [4, operation, 9];
    let needed = usize::from(operation - 256) / 8 + 1;
    for size in (0..=ALL + 3).chain([300]) {
        let mut set = vec![255; size];
        set.iter_mut().skip(ALL).for_each(|byte| *byte = rng.draw() as u8);
        let fits = size >= needed;
        let wanted = Admitted { number: if fits { 0 } else { 48 }, location: if fits { 0 } else { 2 } };
        h.answers(rng, &table, &set, wanted);
        h.tally.met(format!("set of {} bytes", size.min(ALL + 1)));
    }
    // All bits but one, and that one alone.
    let alone = set_of(&[operation]);
    h.answers(rng, &table, &alone, Admitted { number: 0, location: 0 });
    let without: Vec<u8> = alone.iter().map(|byte| !byte).chain([255; 9]).collect();
    h.answers(rng, &table, &without, Admitted { number: 48, location: 2 });
}

/// Operations in words where nothing leads, and numbers of operations as operands, labels, counts and values.
fn unreachable(h: &mut Harness, rng: &mut Rng) {
    let operation = 256 + rng.below(1_024) as u16;
    let tables: [&[u16]; 6] = [
        &[9, operation],
        &[1, 2, operation, 9],
        &[5, operation, 6, operation, 10, operation, 13, operation, 3, operation, 9],
        &[11, 3, 9, operation, 1, operation, 4, 9],
        &[12, operation, operation],
        &[2, 1, operation],
    ];
    for table in tables {
        h.answers(rng, table, &[], Admitted { number: 0, location: 0 });
        h.tally.met("unreachable");
    }
}

/// A table of any sort.
fn any_table(rng: &mut Rng) -> Vec<u16> {
    match rng.below(6) {
        0..=2 => random::structured(rng, 60),
        3 => random::damaged(rng, 30),
        4 => random::foreign(rng, 30),
        _ => crowded::shared(rng, 40),
    }
}

/// Tables and sets of all sorts; a larger set admits too; zeros behind a table, an odd byte and words past 4,096 change nothing.
fn tables(h: &mut Harness, rng: &mut Rng) {
    let table = any_table(rng);
    let mut set = any_set(rng);
    if rng.once_in(2) {
        // Most of the table's own operations.
        let own: Vec<u16> = table.iter().copied().filter(|word| (256..1_280).contains(word) && !rng.once_in(12)).collect();
        set = set_of(&own);
    }
    let lent = bytes(&table);
    let done = h.admit(rng, &lent, &set);
    let mut behind = lent.clone();
    behind.extend(vec![0; rng.below(40)]);
    let padded = h.admit(rng, &behind, &set);
    h.tally.expect(done.number == 41 || padded == done, || format!("  {done:?}, with words behind {padded:?}\n  {table:?}"));
    if done.number != 0 {
        return;
    }
    let mut larger = set.clone();
    larger.extend((0..rng.below(20)).map(|_| rng.draw() as u8));
    larger.iter_mut().for_each(|byte| *byte |= rng.draw() as u8);
    let more = h.admit(rng, &lent, &larger);
    h.tally.expect(more.number == 0, || format!("  a larger set turns the table away: {more:?}\n  {table:?}\n  {set:?}"));
    if rng.once_in(3) {
        h.walk(rng, &lent, &set);
        h.tally.met("walk");
    }
}

/// Loading and admission in one call, with files that are none, lent sizes around the right one, and sets of all sorts.
fn loading(h: &mut Harness, rng: &mut Rng) {
    let table = any_table(rng);
    let set = any_set(rng);
    let mut file = vec![0; 2 * 4_200];
    let written = Reference.write(&bytes(&table), rng.below(2) as u64, &mut file);
    file.truncate(2 * written.words as usize);
    if written.number == 41 {
        // A file all the same.
        let head = [0x4844, 2, table.len() as u16, 0, 0x5457, table.len() as u16];
        file = bytes(&[&head, &table[..]].concat());
    }
    let own = 2 * table.len();
    let sizes = [own, own + 1, own + 9, (own + 1).saturating_sub(2), own.saturating_sub(1), own + rng.below(8)];
    for size in sizes {
        let (loaded, location) = h.load(rng, &file, &set, size);
        // The table that was loaded is admitted likewise by itself.
        if matches!(loaded.number, 0 | 48) {
            let alone = h.admit(rng, &bytes(&table), &set);
            let same = alone == Admitted { number: loaded.number, location };
            h.tally.expect(same, || format!("  {loaded:?} at {location}, by itself {alone:?}\n  {table:?}\n  {set:?}"));
        }
    }
    let cut = rng.below(file.len() + 1);
    h.load(rng, &file[..cut], &set, own);
}

/// Tables around 4,096 words.
fn large(h: &mut Harness, rng: &mut Rng) {
    let size = rng.within(4_094, 4_098);
    let mut table = vec![4; size];
    let operation = 256 + rng.below(1_024) as u16;
    let at = rng.within(4_000, size - 2);
    table[at] = operation;
    table[rng.within(at + 1, size - 1)] = 9;
    table[size - 1] = 9;
    let mut lent = bytes(&table);
    if rng.once_in(2) {
        lent.push(9);
    }
    let set = any_set(rng);
    h.admit(rng, &lent, &set);
    h.tally.met(format!("{size} words"));
}

impl Compares for Harness {
    type Source = Rng;

    const GROUPS: &'static [Group<Harness>] = &[
        ("each operation withheld", withheld, 1),
        ("sets cut at every byte", cut_sets, 1),
        ("words where nothing leads", unreachable, 1),
        ("tables and sets", tables, 60),
        ("loading and admission", loading, 20),
        ("large tables", large, 2),
    ];

    fn tally(&mut self) -> &mut Tally {
        &mut self.tally
    }

    fn report(&mut self, least: u64) {
        self.tally.demand_numbers(least, "admit", &[0, 41, 48]);
        self.tally.demand_numbers(least, "load", &[0, 40, 20, 41, 48]);
        self.tally.demand_numbers(least, "withheld", &[256, 257, 258, 512, 513, 514, 768, 769, 770, 1_024, 1_025, 1_026]);
        self.tally.demand(least, [0, 1, 127, 128, 129].map(|size| format!("set of {size} bytes")));
        self.tally.demand(least, [4_094, 4_095, 4_096, 4_097, 4_098].map(|size| format!("{size} words")));
        self.tally.demand(least, ["unreachable", "walk", "operation walked"]);
    }
}

fn main() -> ExitCode {
    harness::main("compare_rights", SEEDS, |exact| {
        let h = Harness {
            other: ffi::rights().unwrap_or(&Reference),
            processor: ffi::processor().unwrap_or(&Reference),
            walker: ffi::library().unwrap_or(&ffi::Plain),
            exact,
            tally: Tally::default(),
        };
        println!("rust against {}, walks of {}", h.other.name(), h.walker.name());
        h
    })
}
