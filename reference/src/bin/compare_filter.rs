//! Compares the library's character filter with the one of this crate.
//!
//! compare_filter [--exact] [--trace] [seeds [first seed]]
//!
//! Built without the library, this crate's filter stands on both sides.
#![forbid(unsafe_code)]

use std::process::ExitCode;

use reference::ffi;
use reference::harness::{self, Compares, Group, Lent, Tally};
use reference::random::Rng;
use reference::side::{Filtered, Folder, Reference};

const SEEDS: u64 = 3_000;

struct Harness {
    other: &'static dyn Folder,
    exact: bool,
    tally: Tally,
}

#[derive(Clone, Copy, Debug, PartialEq)]
struct Entry {
    first: u8,
    last: u8,
    token: u16,
}

fn bytes(entries: &[Entry]) -> Vec<u8> {
    entries.iter().flat_map(|entry| [[entry.first, entry.last], entry.token.to_be_bytes()].concat()).collect()
}

impl Harness {
    /// Compares one call; what this crate's filter answers.
    fn check(&mut self, rng: &mut Rng, filter: &[u8], text: &[u8], size: usize) -> Filtered {
        let (filter, text) = (Lent::new(rng, filter, self.exact), Lent::new(rng, text, self.exact));
        let mut tokens = Lent::random(rng, size, self.exact);
        let given = || format!("  filter {:?}\n  text {:?}", filter.bytes(), text.bytes());
        let done = self.tally.both(
            [self.other, &Reference],
            &[&filter, &text],
            &mut tokens,
            |side, tokens| side.fold(filter.bytes(), text.bytes(), tokens),
            given,
        );
        if done.number != 0 {
            let kept = tokens.kept() && done.written == 0;
            self.tally.expect(kept, || format!("  something is written with {}", done.number));
        }
        self.tally.met(format!("answer {}", done.number));
        done
    }

    /// Such a call with a buffer that is large enough, which must be answered so.
    fn answers(&mut self, rng: &mut Rng, filter: &[u8], number: u16, at: u64) {
        let text = text(rng);
        let size = 2 * text.len() + rng.below(5);
        let done = self.check(rng, filter, &text, size);
        let right = (done.number, done.at) == (number, at);
        self.tally.expect(right, || format!("  {done:?}, not {number} naming {at}\n  filter {filter:?}"));
    }
}

fn text(rng: &mut Rng) -> Vec<u8> {
    let size = rng.pick(&[0, 1, 2, 17, 60, 300]);
    let size = rng.below(size + 1);
    (0..size).map(|_| rng.draw() as u8).collect()
}

fn token(rng: &mut Rng) -> u16 {
    if rng.once_in(3) { rng.pick(&[0, 1, 255, 256, 65_535]) } else { rng.word() }
}

/// A filter of so many entries that has every byte in one, the entries in any order.
fn good(rng: &mut Rng, count: usize) -> Vec<Entry> {
    let mut cuts: Vec<u8> = Vec::new();
    while cuts.len() + 1 < count {
        let cut = if rng.once_in(8) { rng.pick(&[1, 2, 127, 128, 254, 255]) } else { rng.within(1, 255) as u8 };
        if !cuts.contains(&cut) {
            cuts.push(cut);
        }
    }
    cuts.sort_unstable();
    let firsts = std::iter::once(0).chain(cuts.iter().copied());
    let lasts = cuts.iter().map(|cut| cut - 1).chain([255]);
    let mut entries: Vec<Entry> = firsts.zip(lasts).map(|(first, last)| Entry { first, last, token: token(rng) }).collect();
    for i in (1..entries.len()).rev() {
        entries.swap(i, rng.below(i + 1));
    }
    entries
}

fn count(rng: &mut Rng) -> usize {
    match rng.below(4) {
        0 => rng.within(1, 4),
        1 => rng.within(60, 64),
        _ => rng.within(1, 64),
    }
}

/// A part of an entry at the end, of 0 to 3 bytes.
fn part(rng: &mut Rng) -> Vec<u8> {
    (0..rng.below(4)).map(|_| rng.draw() as u8).collect()
}

/// Good filters: each byte value once, and any text.
fn accepted(h: &mut Harness, rng: &mut Rng) {
    let count = count(rng);
    let entries = good(rng, count);
    let filter = [bytes(&entries), part(rng)].concat();
    h.answers(rng, &filter, 0, 0);
    let all: Vec<u8> = (0..=255).collect();
    let mut tokens = vec![0; 512];
    let done = h.check(rng, &filter, &all, 512);
    h.other.fold(&filter, &all, &mut tokens);
    let right = all.iter().zip(tokens.as_chunks::<2>().0).all(|(byte, token)| {
        let of: Vec<&Entry> = entries.iter().filter(|entry| (entry.first..=entry.last).contains(byte)).collect();
        of.len() == 1 && of[0].token == u16::from_be_bytes(*token)
    });
    h.tally.expect(right && done.number == 0, || format!("  a byte has another token than its entry's\n  {entries:?}"));
}

/// All orders of four entries: none matters.
fn orders(h: &mut Harness, rng: &mut Rng) {
    let entries = good(rng, 4);
    let text = text(rng);
    let mut tokens = vec![vec![0; 2 * text.len()]; 2];
    h.other.fold(&bytes(&entries), &text, &mut tokens[0]);
    for order in 0..256 {
        let places = [order % 4, order / 4 % 4, order / 16 % 4, order / 64];
        if (0..4).any(|place| !places.contains(&place)) {
            continue;
        }
        let filter = bytes(&places.map(|place| entries[place]));
        h.answers(rng, &filter, 0, 0);
        h.other.fold(&filter, &text, &mut tokens[1]);
        h.tally.expect(tokens[0] == tokens[1], || format!("  the order matters in {entries:?}"));
        h.tally.met("order");
    }
}

/// Overlaps and gaps at 0, at 255 and in between, one and several.
fn overlaps_and_gaps(h: &mut Harness, rng: &mut Rng) {
    let count = rng.within(1, 60);
    let entries = good(rng, count);
    for byte in [0, 255, rng.within(1, 254) as u8] {
        let place = match byte {
            0 => "at 0",
            255 => "at 255",
            _ => "between",
        };
        // One byte more in an entry of its own.
        let mut twice = entries.clone();
        twice.insert(rng.below(count + 1), Entry { first: byte, last: byte, token: 1 });
        let filter = [bytes(&twice), part(rng)].concat();
        h.answers(rng, &filter, 43, u64::from(byte));
        h.tally.met(format!("overlap {place}"));
        // Its entry without it: shorter, in two, or gone.
        let mut none = entries.clone();
        let at = none.iter().position(|entry| (entry.first..=entry.last).contains(&byte)).expect("in one");
        let Entry { first, last, token } = none.remove(at);
        let below = (first < byte).then(|| Entry { first, last: byte - 1, token });
        let above = (last > byte).then(|| Entry { first: byte + 1, last, token });
        none.extend(below.into_iter().chain(above));
        let filter = [bytes(&none), part(rng)].concat();
        h.answers(rng, &filter, 44, u64::from(byte));
        h.tally.met(format!("gap {place}"));
        // An overlap comes before a gap, wherever they are.
        let other = none[rng.below(none.len().max(1)).min(none.len().saturating_sub(1))..].first().copied();
        if let Some(other) = other {
            let within = rng.within(usize::from(other.first), usize::from(other.last)) as u8;
            none.push(Entry { first: within, last: other.last, token: 0 });
            h.answers(rng, &bytes(&none), 43, u64::from(within));
            h.tally.met("overlap beside a gap");
            // An entry the wrong way round comes before both.
            let number = rng.below(none.len() + 1);
            let first = rng.within(1, 255) as u8;
            let last = rng.below(usize::from(first)) as u8;
            none.insert(number, Entry { first, last, token: 0 });
            none.push(Entry { first: 1, last: 0, token: 0 });
            if none.len() <= 64 {
                h.answers(rng, &bytes(&none), 42, number as u64);
                h.tally.met("order beside both");
            }
        }
    }
}

/// 63 to 66 entries, good or not, with and without a part of one behind them.
fn many(h: &mut Harness, rng: &mut Rng) {
    for count in [63, 64, 65, 66, 200] {
        let mut entries = good(rng, count.min(64));
        while entries.len() < count {
            entries.push(Entry { first: rng.draw() as u8, last: rng.draw() as u8, token: 0 });
        }
        for more in 0..4 {
            let behind: Vec<u8> = (0..more).map(|_| rng.draw() as u8).collect();
            let filter = [bytes(&entries), behind].concat();
            h.answers(rng, &filter, if count > 64 { 9 } else { 0 }, 0);
            h.tally.met(format!("{} entries and {more} bytes", count.min(66)));
        }
    }
}

/// Token buffers of every size around the right one.
fn lent_sizes(h: &mut Harness, rng: &mut Rng) {
    let count = count(rng);
    let filter = bytes(&good(rng, count));
    let text = text(rng);
    let own = 2 * text.len();
    for size in (0..9).map(|i| (own + i).saturating_sub(4)).chain([0, 1, own / 2, 2 * own + 7]) {
        let done = h.check(rng, &filter, &text, size);
        let number = if size / 2 < text.len() { 20 } else { 0 };
        h.tally.expect(done.number == number && done.at == 0, || format!("  {done:?} for {own} bytes in {size}"));
        h.tally.met(format!("{} {}", if size % 2 == 1 { "odd" } else { "even" }, if number == 0 { "enough" } else { "short" }));
    }
    // A refused filter is refused before the buffer is looked at.
    let done = h.check(rng, &filter[4..], &text, 0);
    h.tally.expect(done.number == 44, || format!("  {done:?} for a filter with a gap and no buffer"));
}

/// Filters without order.
fn random(h: &mut Harness, rng: &mut Rng) {
    let mut filter: Vec<u8> = (0..rng.below(300)).map(|_| rng.draw() as u8).collect();
    let text = text(rng);
    let size = rng.below(2 * text.len() + 3);
    h.check(rng, &filter, &text, size);
    for entry in filter.as_chunks_mut::<4>().0 {
        if entry[0] > entry[1] {
            entry.swap(0, 1);
        }
    }
    h.check(rng, &filter, &text, size);
    // A good one with a byte changed.
    let count = count(rng);
    let mut filter = bytes(&good(rng, count));
    let at = rng.below(filter.len());
    filter[at] = rng.draw() as u8;
    h.check(rng, &filter, &text, size);
}

impl Compares for Harness {
    type Source = Rng;

    const GROUPS: &'static [Group<Harness>] = &[
        ("accepted", accepted, 4),
        ("all orders", orders, 1),
        ("overlaps and gaps", overlaps_and_gaps, 2),
        ("64 entries and more", many, 1),
        ("lent sizes", lent_sizes, 1),
        ("random", random, 10),
    ];

    fn tally(&mut self) -> &mut Tally {
        &mut self.tally
    }

    fn report(&mut self, least: u64) {
        self.tally.demand_numbers(least, "answer", &[0, 9, 42, 43, 44, 20]);
        let places = ["at 0", "at 255", "between"];
        self.tally.demand(least, places.map(|place| format!("overlap {place}")));
        self.tally.demand(least, places.map(|place| format!("gap {place}")));
        self.tally.demand(least, ["overlap beside a gap", "order beside both", "order"]);
        self.tally.demand(least, ["even enough", "odd enough", "even short", "odd short"]);
        let sizes = (63..67).flat_map(|count| (0..4).map(move |more| format!("{count} entries and {more} bytes")));
        self.tally.demand(least, sizes);
    }
}

fn main() -> ExitCode {
    harness::main("compare_filter", SEEDS, |exact| {
        let other = ffi::folder().unwrap_or(&Reference);
        println!("rust against {}", other.name());
        Harness { other, exact, tally: Tally::default() }
    })
}
