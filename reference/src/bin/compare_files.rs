//! Compares the library's loader and writer of table files with those of this crate, and walks what they take.
//!
//! compare_files [--exact] [--trace] [seeds [first seed]]
//!
//! Built without the library, this crate stands on both sides, and the plain C walker walks.
#![forbid(unsafe_code)]

use std::process::ExitCode;

use reference::crowded::{self, CROWDED};
use reference::ffi;
use reference::files::{Files, Loaded, Written, words};
use reference::harness::{self, Compares, Group, Lent, Tally};
use reference::random::{self, Rng};
use reference::side::{Processor, Reference, Side};
use reference::tables::bytes;
use reference::texts::{self, Seed};

const SEEDS: u64 = 500;
/// The records' sizes that files are made of.
const LENGTHS: [usize; 13] = [1, 2, 3, 255, 256, 257, 511, 512, 513, 1_024, 4_095, 4_096, 4_000];
/// The words of the largest file, and some more.
const ROOM: usize = 2 * 4_200;
/// The calls of a walk over a table that was taken.
const CALLS: usize = 12;

struct Harness {
    other: &'static dyn Files,
    processor: &'static dyn Processor,
    walker: &'static dyn Side,
    exact: bool,
    tally: Tally,
}

/// Words of bytes, cut where they are many.
fn listed(bytes: &[u8]) -> String {
    let all = words(bytes);
    let more = if all.len() > 200 { " .." } else { "" };
    format!("{} bytes: {:?}{more}", bytes.len(), &all[..all.len().min(200)])
}

impl Harness {
    /// Compares one loading, the lent bytes being random; what this crate's loader answers.
    fn load(&mut self, rng: &mut Rng, file: &[u8], size: usize) -> Loaded {
        let file = Lent::new(rng, file, self.exact);
        let mut table = Lent::random(rng, size, self.exact);
        let given = || format!("  file of {}", listed(file.bytes()));
        let done =
            self.tally.both([self.other, &Reference], &[&file], &mut table, |side, table| side.load(file.bytes(), table), given);
        self.tally.met(format!("load {}", done.number));
        done
    }

    /// Compares one writing likewise.
    fn write(&mut self, rng: &mut Rng, table: &[u8], verdict: u64, size: usize) -> Written {
        let table = Lent::new(rng, table, self.exact);
        let mut file = Lent::random(rng, size, self.exact);
        let given = || format!("  verdict {verdict}, table of {}", listed(table.bytes()));
        let done = self.tally.both(
            [self.other, &Reference],
            &[&table],
            &mut file,
            |side, file| side.write(table.bytes(), verdict, file),
            given,
        );
        self.tally.met(format!("write {}", done.number));
        done
    }

    /// Writes a table and loads its file, with buffers that are large enough; what is taken is walked.
    fn both(&mut self, rng: &mut Rng, table: &[u16]) -> bool {
        let verdict = rng.below(2) as u64;
        let bytes = bytes(table);
        let (room, size) = (ROOM + rng.below(2), 2 * table.len() + rng.below(8));
        let written = self.write(rng, &bytes, verdict, room);
        let done = self.load(rng, &file(table, verdict as u16), size);
        if done.number != 0 {
            self.tally.expect(written.number == done.number, || format!("  {written:?} and {done:?}\n  table {table:?}"));
            return false;
        }
        let right = Loaded { number: 0, words: table.len() as u64, verdict };
        self.tally.expect(written.number == 0 && done == right, || format!("  {written:?} and {done:?}\n  table {table:?}"));
        true
    }

    /// Walks a table that was taken, half of the time with any words behind it, in calls of all sorts: never 37.
    fn walk(&mut self, rng: &mut Rng, table: &[u16]) {
        let mut table = bytes(table);
        if rng.once_in(2) {
            table.extend((0..rng.below(40)).map(|_| rng.draw() as u8));
        }
        let (number, _) = harness::walk(rng, self.walker, &table, &[0, 0, 1, 2, 30, 65_535], CALLS);
        self.tally.met(format!("walk {number}"));
        self.tally.expect(number != 37, || format!("  a walk over a taken table gives 37\n  table of {}", listed(&table)));
    }
}

/// The bytes of a file, whatever its table is: the form, put together word by word.
fn file(table: &[u16], verdict: u16) -> Vec<u8> {
    let mut words = vec![0x4844, 2, table.len() as u16, verdict];
    for (i, word) in table.iter().enumerate() {
        if i % 256 == 0 {
            words.extend([0x5457, (table.len() - i).min(256) as u16]);
        }
        words.push(*word);
    }
    bytes(&words)
}

/// A table of that many words that is taken.
fn table_of(rng: &mut Rng, length: usize) -> Vec<u16> {
    let mut table = match rng.below(4) {
        0 => random::structured(rng, length.min(60)),
        1 => vec![9],
        _ => (0..length - 1).map(|_| rng.pick(&[4, 256, 511, 512, 767, 768, 1_023, 1_024, 1_279])).collect(),
    };
    if table.len() < length {
        // Anything may stand where nothing leads, but the row needs its return.
        table.push(9);
    }
    while table.len() < length {
        table.push(rng.word());
    }
    table.truncate(length);
    table
}

/// Tables of each of the records' sizes, and lent buffers of every size around the right one.
fn sizes(h: &mut Harness, rng: &mut Rng) {
    let length = rng.pick(&LENGTHS);
    let table = table_of(rng, length);
    let taken = h.both(rng, &table);
    h.tally.met(format!("{length} words"));
    let (verdict, table_bytes) = (rng.below(2) as u64, bytes(&table));
    let (file, own) = (file(&table, verdict as u16), 2 * length);
    for size in (0..=7).map(|i| (own + i).saturating_sub(4)).chain([0, 1, 2, 3, own / 2, 2 * 4_096, 2 * 4_096 + 3]) {
        let number = h.load(rng, &file, size).number;
        let fits = size / 2 >= length;
        h.tally.expect((number == 20) != fits, || format!("  {size} bytes lent for {length} words: {number}"));
    }
    let own = file.len();
    for size in (0..=7).map(|i| (own + i).saturating_sub(4)).chain([0, 1, 2, 3, own / 2, ROOM + 3]) {
        let number = h.write(rng, &table_bytes, verdict, size).number;
        let fits = size / 2 >= own / 2;
        h.tally.expect((number == 20) != fits, || format!("  {size} bytes lent for a file of {own}: {number}"));
    }
    if taken && rng.once_in(4) {
        h.walk(rng, &table);
    }
}

/// What may not be written: no word, too many, another verdict; an odd last byte counts for nothing.
fn not_written(h: &mut Harness, rng: &mut Rng) {
    let table = random::structured(rng, 12);
    let mut odd = bytes(&table);
    odd.push(rng.pick(&[0, 9, 255]));
    let good = h.write(rng, &odd, 1, ROOM);
    h.tally.expect(good.number == 0, || format!("  {good:?} for {table:?}"));
    let verdicts = [2, 3, 255, 256, 65_535, 65_536, 65_537, 1 << 32, (1 << 32) + 1, 1 << 63, u64::MAX];
    for verdict in verdicts {
        let size = rng.pick(&[0, 1, 9, ROOM]);
        let done = h.write(rng, &bytes(&table), verdict, size);
        h.tally.expect(done.number == 40, || format!("  {done:?} for the verdict {verdict}"));
    }
    for length in [0, 4_097, 4_098, 8_192] {
        let mut table = vec![9; length];
        if let Some(first) = table.first_mut() {
            *first = rng.pick(&[0, 9]);
        }
        let mut table = bytes(&table);
        if rng.once_in(2) {
            table.push(9);
        }
        let (size, verdict) = (rng.pick(&[0, 9, ROOM, 2 * ROOM + 1]), rng.below(3) as u64);
        let done = h.write(rng, &table, verdict, size);
        h.tally.expect(done.number == 40, || format!("  {done:?} for {length} words"));
    }
}

/// A small file cut at every byte, with bytes behind it, and with each of its words changed.
fn no_files(h: &mut Harness, rng: &mut Rng) {
    let table = random::structured(rng, 6);
    let good = file(&table, rng.below(2) as u16);
    for cut in 0..good.len() {
        let size = 2 * rng.below(40);
        let done = h.load(rng, &good[..cut], size);
        h.tally.expect(done.number == 40, || format!("  {done:?} for {cut} bytes of {}", listed(&good)));
    }
    let more: [&[u8]; 6] = [&[0], &[0, 0], &[9], b"TW\0\0", b"TW\0\x01\0\x09", b"HD\0\x02\0\x01\0\x01TW\0\x01\0\x09"];
    for more in more {
        let size = 2 * rng.below(80);
        let done = h.load(rng, &[&good, more].concat(), size);
        h.tally.expect(done.number == 40, || format!("  {done:?} with {more:?} behind {}", listed(&good)));
    }
    for at in 0..good.len() {
        let mut other = good.clone();
        other[at] = match rng.below(4) {
            0 => rng.draw() as u8,
            1 => other[at] ^ 1 << rng.below(8),
            2 => other[at].wrapping_add(1),
            _ => other[at].wrapping_sub(1),
        };
        let size = 2 * rng.below(3 * table.len());
        h.load(rng, &other, size);
    }
    // Marks, counts, length and verdict, all at once in the window, and the words put in and left out.
    for at in 0..6 {
        let right = words(&good)[at];
        let window = (0..12).map(|i| (right + 6).wrapping_sub(i));
        for word in window.chain([0, 1, 2, 255, 256, 257, 4_096, 4_097, 0x4844, 0x5457, 0x4448, 65_535]) {
            let mut all = words(&good);
            all[at] = word;
            let done = h.load(rng, &bytes(&all), ROOM);
            let fine = word == right || at == 3 && word <= 1;
            h.tally.expect((done.number == 0) == fine, || format!("  {done:?} with word {at} {word} in {}", listed(&good)));
        }
        let mut all = words(&good);
        all.remove(at);
        h.load(rng, &bytes(&all), ROOM);
        all.insert(at, right);
        all.insert(at, right);
        h.load(rng, &bytes(&all), ROOM);
    }
}

/// Files of more than one record with a record split, joined, emptied, left out, or put in twice.
fn other_records(h: &mut Harness, rng: &mut Rng) {
    let length = rng.pick(&[256, 257, 300, 512, 513, 700]);
    let table = table_of(rng, length);
    let cuts: Vec<usize> = match rng.below(5) {
        0 => vec![256; length / 256 + 1],
        1 => vec![length],
        2 => vec![255, 257, 256],
        3 => vec![256, 0, 256, 256],
        _ => (0..6).map(|_| rng.pick(&[1, 128, 255, 256, 256, 256])).collect(),
    };
    let claimed = if rng.once_in(3) { length as u16 } else { rng.pick(&[length as u16, length as u16 - 1, length as u16 + 1]) };
    let mut all = vec![0x4844, 2, claimed, 0];
    let mut rest = &table[..];
    for cut in cuts {
        let (part, behind) = rest.split_at(cut.min(rest.len()));
        if part.is_empty() && !rng.once_in(3) {
            continue;
        }
        all.extend([0x5457, part.len() as u16]);
        all.extend_from_slice(part);
        rest = behind;
    }
    h.load(rng, &bytes(&all), ROOM);
}

/// Each word of a small table changed, to all values in a window and to those where instructions begin and end.
fn each_word(h: &mut Harness, rng: &mut Rng) {
    let table = random::structured(rng, 8);
    if table.len() > 40 {
        return;
    }
    let edges = [14, 255, 256, 767, 768, 1_279, 1_280, 32_768, 65_534, 65_535];
    for at in 0..table.len() {
        for word in (0..table.len() as u16 + 15).chain(edges) {
            let mut table = table.clone();
            table[at] = word;
            let size = 2 * table.len();
            let done = h.load(rng, &file(&table, 0), size);
            if done.number == 0 && rng.once_in(16) {
                h.walk(rng, &table);
            }
        }
    }
}

/// Tables of all sorts.
fn tables(h: &mut Harness, rng: &mut Rng) {
    let sort = rng.below(5);
    let table = match sort {
        0 => random::structured(rng, 60),
        1 | 2 => random::damaged(rng, 40),
        3 => random::foreign(rng, 30),
        _ => crowded::shared(rng, 40),
    };
    if table.is_empty() {
        return;
    }
    let taken = h.both(rng, &table);
    h.tally.met(format!(
        "{} {}",
        ["structured", "damaged", "damaged", "foreign", "crowded"][sort],
        if taken { "taken" } else { "not" }
    ));
    if taken {
        h.walk(rng, &table);
    }
}

/// What the processor writes is taken.
fn accepted(h: &mut Harness, rng: &mut Rng) {
    let mut seed = Seed::new(rng.draw());
    let size = 3 + seed.below(80);
    let words_of_text = texts::good(&mut seed, size);
    let text = texts::join(&mut seed, &words_of_text);
    let mut table = vec![0; 2 * 4_096];
    let done = h.processor.process(&text, &mut table);
    table.truncate(2 * done.words as usize);
    let table = words(&table);
    let taken = h.both(rng, &table);
    h.tally.expect(taken, || format!("  the table of an accepted program is not taken\n  \"{}\"", text.escape_ascii()));
    h.tally.met("program");
}

/// Tables of 4,096 words that make a loader work, as they are and with a word changed.
fn large(h: &mut Harness, rng: &mut Rng) {
    let sort = rng.below(CROWDED.len());
    let mut table = crowded::crowded(sort);
    let taken = h.both(rng, &table);
    h.tally.expect(taken, || format!("  not taken: {}", CROWDED[sort]));
    h.tally.met(CROWDED[sort].to_string());
    for _ in 0..3 {
        let at = rng.below(table.len());
        let kept = table[at];
        table[at] = if rng.once_in(2) { rng.word() } else { table[at].wrapping_add(rng.pick(&[1, 2, 65_535, 65_534])) };
        h.both(rng, &table);
        table[at] = kept;
    }
    if rng.once_in(4) {
        h.walk(rng, &table);
    }
}

impl Compares for Harness {
    type Source = Rng;

    const GROUPS: &'static [Group<Harness>] = &[
        ("records and lent sizes", sizes, 2),
        ("not written", not_written, 1),
        ("bytes that are no file", no_files, 1),
        ("other records", other_records, 4),
        ("each word of a table", each_word, 3),
        ("tables", tables, 80),
        ("accepted programs", accepted, 8),
        ("crowded tables", large, 1),
    ];

    fn tally(&mut self) -> &mut Tally {
        &mut self.tally
    }

    fn report(&mut self, least: u64) {
        self.tally.demand_numbers(least, "load", &[0, 40, 20, 41]);
        self.tally.demand_numbers(least, "write", &[0, 40, 20, 41]);
        self.tally.demand_numbers(least, "walk", &[0, 22, 30, 31, 32, 33, 34, 35, 36]);
        self.tally.demand(least, ["structured", "damaged", "foreign", "crowded"].map(|sort| format!("{sort} taken")));
        self.tally.demand(least, ["damaged", "foreign", "crowded"].map(|sort| format!("{sort} not")));
        self.tally.demand(least, LENGTHS.map(|length| format!("{length} words")));
        self.tally.demand(least, CROWDED);
        self.tally.demand(least, ["program"]);
    }
}

fn main() -> ExitCode {
    harness::main("compare_files", SEEDS, |exact| {
        let h = Harness {
            other: ffi::files().unwrap_or(&Reference),
            processor: ffi::processor().unwrap_or(&Reference),
            walker: ffi::library().unwrap_or(&ffi::Plain),
            exact,
            tally: Tally::default(),
        };
        println!("rust against {}, walks of {}", h.other.name(), h.walker.name());
        h
    })
}
