//! Compares the library's figure of a program with the one of this crate, text by text, and walks programs slowly against the bound that the
//! figure gives.
//!
//! compare_quiet [--exact] [--trace] [seeds [first seed]]
//!
//! Built without the library, this crate's processor stands on both sides, and the plain C walker walks.
#![forbid(unsafe_code)]

use std::process::ExitCode;

use reference::chains;
use reference::choosers;
use reference::faults;
use reference::ffi;
use reference::figures::visits;
use reference::harness::{self, Compares, Group, Lent, Tally};
use reference::limits::{self, LIMITS};
use reference::processor::{self, MAX_TABLE, resolve};
use reference::programs;
use reference::quiet::{GREATEST, Measured, Measurer, Quiet, TOO_LONG};
use reference::random::Rng;
use reference::side::{Inputs, Reference, Side};
use reference::slow::{self, Feed};
use reference::tables::bytes;
use reference::texts::{self, Seed};
use reference::walker::{WAITS, WALK_BYTES};

const SEEDS: u64 = 600;
/// Lent bytes for the largest table.
const LARGEST: usize = 2 * MAX_TABLE;
/// The events that a call has room for.
const EVENTS: usize = 1_000;
/// No walk needs more than 65 times Q steps for each of n + r + 1 stretches.
const BOUND: u64 = 65;
/// The greatest figure of a program that is walked, so that walks are short.
const WALKED: u64 = 20_000;
/// Walks of one program.
const RESTARTS: usize = 6;
/// The tower that comes nearest to the bound: calls pending, figure, tokens.
const TOWER: (usize, usize, usize) = (64, 66, 10_000);

/// A walk's steps for one stretch of one figure: at most 65.
#[derive(Default)]
struct Nearest {
    ratio: f64,
    of: String,
}

impl Nearest {
    fn take(&mut self, steps: u64, figure: u64, feed: &Feed, text: &[u8]) {
        let ratio = steps as f64 / (figure as f64 * feed.stretches() as f64);
        if ratio > self.ratio {
            let (tokens, repairs) = (feed.tokens.len(), feed.allowance);
            let of = format!("{steps} steps, figure {figure}, {tokens} tokens, {repairs} repairs, text of {} bytes", text.len());
            *self = Nearest { ratio, of };
        }
    }
}

struct Harness {
    other: &'static dyn Measurer,
    walkers: Vec<&'static dyn Side>,
    exact: bool,
    tally: Tally,
    /// Over generated programs, and over towers.
    generated: Nearest,
    towers: Nearest,
}

/// A text, escaped so that it can be read, cut where it is long.
fn shown(text: &[u8]) -> String {
    format!("  text of {} bytes: \"{}\"", text.len(), text[..text.len().min(4_000)].escape_ascii())
}

impl Harness {
    /// Compares one call on both sides, the lent bytes being random; what this crate's processor answers.
    fn check(&mut self, rng: &mut Rng, text: &[u8], size: usize) -> Measured {
        let read = Lent::new(rng, text, self.exact);
        let mut table = Lent::random(rng, size, self.exact);
        let done = self.tally.both(
            [self.other, &Reference],
            &[&read],
            &mut table,
            |side, table| side.measure(read.bytes(), table),
            || shown(text),
        );
        self.tally.met(format!("answer {}", done.processed.number));
        if done.processed.number == 0 {
            let sort = match done {
                Measured { figure_number: TOO_LONG, .. } => "47",
                Measured { figure: 0, .. } => "not finishing",
                _ => "a figure",
            };
            self.tally.met(sort.to_string());
        }
        done
    }

    /// Such a call for a program whose figure is known.
    fn known(&mut self, rng: &mut Rng, text: &[u8], figure: u128) {
        let done = self.check(rng, text, LARGEST);
        let wanted = if figure > u128::from(GREATEST) { (0, TOO_LONG) } else { (figure as u64, 0) };
        let right = done.processed.number == 20 || (done.figure, done.figure_number) == wanted;
        self.tally.expect(right, || format!("  {done:?}, not {figure}\n{}", shown(text)));
        if done.processed.number == 0 && figure.abs_diff(u128::from(GREATEST)) <= 2 {
            self.tally.met(format!("a path of {figure}"));
        }
    }

    /// The steps of a walk in whole or in paused calls. It must stop, or wait past the last answer, in so many steps.
    fn walk(&mut self, side: &dyn Side, table: &[u8], feed: &Feed, bound: u64, pauses: bool) -> u64 {
        let (tokens, answers) = (bytes(&feed.tokens), bytes(&feed.answers));
        let inputs = Inputs { table, tokens: &tokens, answers: &answers };
        let (mut walk, mut events) = ([0; WALK_BYTES], vec![0; 6 * EVENTS]);
        side.fresh(&mut walk, feed.allowance);
        let (mut steps, mut used, mut answer) = (0, 0, None);
        let number = loop {
            let left = bound - steps;
            let done = match answer.take() {
                _ if !pauses => side.whole(inputs, left, &mut walk, &mut events),
                None => side.paused(inputs, 0, 0, left, &mut walk, &mut events),
                Some(answer) => side.paused(inputs, 1, answer, left, &mut walk, &mut events),
            };
            steps += done.steps;
            answer = feed.answers.get(used).copied().filter(|_| done.number == WAITS);
            used += usize::from(answer.is_some());
            if answer.is_none() && done.number != 35 {
                break done.number;
            }
        };
        let name = side.name();
        self.tally
            .expect(!matches!(number, 36 | 21 | 37), || format!("  {name} ends with {number} after {steps} steps, {feed:?}"));
        self.tally.met(format!("walk {number}"));
        steps
    }

    /// The steps of a walk by all walkers, whole and in pauses.
    fn walks(&mut self, text: &[u8], table: &[u16], feed: &Feed, figure: u64) -> u64 {
        let table = bytes(table);
        let bound = BOUND * figure * feed.stretches();
        let mut all = Vec::new();
        for side in self.walkers.clone() {
            for pauses in [false, true] {
                all.push(self.walk(side, &table, feed, bound, pauses));
            }
        }
        self.tally.expect(all.iter().all(|steps| *steps == all[0] && *steps <= bound), || {
            format!("  steps {all:?}, bound {bound}, figure {figure}, {feed:?}\n{}", shown(text))
        });
        all[0]
    }

    /// A program walked slowly, again and again.
    fn slowly(&mut self, rng: &mut Rng, text: &[u8]) {
        let done = self.check(rng, text, LARGEST);
        if !(1..=WALKED).contains(&done.figure) {
            return;
        }
        let Ok(program) = resolve(text) else { return };
        let (table, starts) = processor::table(&program);
        let mut quiet = Quiet::new(&table, &starts);
        let seed = &mut Seed::new(rng.draw());
        let mut longest = 0;
        for _ in 0..RESTARTS {
            let (most, repairs) = (*seed.of(&[0, 1, 3, 10, 40, 100]), *seed.of(&[0, 0, 1, 5]));
            let feed = slow::slow(seed, &table, &mut quiet, most, repairs);
            let steps = self.walks(text, &table, &feed, done.figure);
            self.generated.take(steps, done.figure, &feed, text);
            let inputs = Inputs { table: &bytes(&table), tokens: &bytes(&feed.tokens), answers: &bytes(&feed.answers) };
            let (_, visited) = visits(inputs, steps, feed.allowance, &mut vec![0; 6 * steps as usize]);
            longest = longest.max(slow::stretch(&table, &visited));
        }
        self.tally
            .expect(longest <= done.figure, || format!("  a stretch of {longest}, figure {}\n{}", done.figure, shown(text)));
        self.tally.met(if longest == done.figure { "figure walked" } else { "figure not walked" }.to_string());
    }
}

/// A good program of any shape.
fn good(seed: &mut Seed) -> Vec<u8> {
    let size = 3 + seed.below(80);
    let words = texts::good(seed, size);
    texts::join(seed, &words)
}

fn good_programs(h: &mut Harness, rng: &mut Rng) {
    let text = good(&mut Seed::new(rng.draw()));
    h.check(rng, &text, LARGEST);
}

/// Programs rich in choice rules.
fn choice_rules(h: &mut Harness, rng: &mut Rng) {
    let text = choosers::text(&choosers::program(&mut Seed::new(rng.draw())));
    h.check(rng, text.as_bytes(), LARGEST);
}

/// Programs of up to 4,096 words with up to 127 choice rules, and others of up to 32 KB.
fn large(h: &mut Harness, rng: &mut Rng) {
    let seed = &mut Seed::new(rng.draw());
    let text = match seed.below(4) {
        0 => {
            let bytes = seed.within(1_024, 16_000);
            programs::typical(seed, bytes).text
        }
        1 => {
            let sort = seed.below(programs::HARD.len());
            let bytes = seed.within(1_024, 8_192);
            programs::hard(sort, bytes).text
        }
        _ => {
            let slips = seed.one_in(3);
            choosers::text(&choosers::large(seed, slips)).into_bytes()
        }
    };
    h.check(rng, &text, LARGEST);
}

/// Texts that are refused have neither figure nor 47.
fn refused(h: &mut Harness, rng: &mut Rng) {
    let seed = &mut Seed::new(rng.draw());
    let sort = seed.below(faults::SORTS);
    let planted = faults::plant(seed, sort);
    let damaged = texts::text(seed, 30);
    for text in [planted.text, faults::several(seed), damaged] {
        let done = h.check(rng, &text, LARGEST);
        let none = done.processed.number == 0 || (done.figure, done.figure_number) == (0, 0);
        h.tally.expect(none, || format!("  refused, and {done:?}\n{}", shown(&text)));
    }
    // The table does not fit.
    let text = good(seed);
    let words = h.check(rng, &text, LARGEST).processed.words as usize;
    for size in [0, 1, 2 * words - 2, 2 * words - 1, 2 * words, 2 * words + 1] {
        let done = h.check(rng, &text, size);
        let none = size >= 2 * words || (done.processed.number, done.figure, done.figure_number) == (20, 0, 0);
        h.tally.expect(none, || format!("  {size} bytes lent, and {done:?}\n{}", shown(&text)));
    }
}

/// One of the limits: one less, at it, one past it, far past it.
fn around_limits(h: &mut Harness, rng: &mut Rng) {
    let seed = &mut Seed::new(rng.draw());
    let limit = seed.below(LIMITS.len());
    for sample in limits::samples(seed, limit) {
        h.check(rng, &sample.text, LARGEST);
    }
}

/// Chains of calls whose figure is known: just at the greatest, around it, and far from it.
fn chains_of_calls(h: &mut Harness, rng: &mut Rng) {
    let seed = &mut Seed::new(rng.draw());
    let greatest = u128::from(GREATEST);
    for figure in [greatest - 2, greatest - 1, greatest, greatest + 1, greatest + 2] {
        let text = chains::chain(seed, figure);
        h.known(rng, &text, figure);
    }
    let bits = seed.within(10, 66);
    let figure = (1 << bits) + u128::from(seed.draw() % (1 << bits.min(63)));
    let text = chains::chain(seed, figure);
    h.known(rng, &text, figure);
}

/// Chains with lengths past every number.
fn endless_chains(h: &mut Harness, rng: &mut Rng) {
    let text = chains::endless(&mut Seed::new(rng.draw()));
    let done = h.check(rng, &text, LARGEST);
    h.tally.expect(done.processed.number == 0, || format!("  {done:?}\n{}", shown(&text)));
}

/// Cycles and choices in each other, up to the greatest depth.
fn deep_nests(h: &mut Harness, rng: &mut Rng) {
    let seed = &mut Seed::new(rng.draw());
    let depth = if seed.one_in(2) { 32 } else { seed.within(1, 33) };
    let text = chains::nest(seed, depth);
    let done = h.check(rng, &text, LARGEST);
    if done.figure > 0 && depth == 32 {
        h.tally.met("depth 32 with a figure");
    }
}

/// Generated programs with tokens and answers chosen to be slow.
fn slow_walks(h: &mut Harness, rng: &mut Rng) {
    let seed = &mut Seed::new(rng.draw());
    let depth = seed.within(2, 12);
    let small = seed.within(1_000, 4_000) as u128;
    for text in
        [good(seed), choosers::text(&choosers::program(seed)).into_bytes(), chains::nest(seed, depth), chains::chain(seed, small)]
    {
        h.slowly(rng, &text);
    }
}

/// Rules on top of each other that each do a whole quiet path between two reads, or two repairs: the number of steps is known.
fn towers(h: &mut Harness, rng: &mut Rng) {
    let seed = &mut Seed::new(rng.draw());
    let deep = if seed.one_in(3) { 64 } else { seed.within(1, 64) };
    let long = deep + 2 + seed.below(40);
    let many = seed.below(60);
    tower(h, rng, (deep, long, many), many % 3);
}

fn tower(h: &mut Harness, rng: &mut Rng, (deep, long, many): (usize, usize, usize), sort: usize) {
    let text = chains::tower(deep, long, if sort == 0 { "?" } else { "a" });
    h.known(rng, &text, long as u128);
    let program = resolve(&text).expect("a good text");
    let (table, _) = processor::table(&program);
    // Reads, repairs alone, or both.
    let tokens = if sort == 1 { 0 } else { many / (1 + sort / 2) };
    let feed = Feed { tokens: vec![0; tokens], answers: Vec::new(), allowance: (many - tokens) as u16 };
    let steps = h.walks(&text, &table, &feed, long as u64);
    let wanted = (deep + 1) * (1 + many * long);
    h.tally.expect(steps == wanted as u64, || format!("  {steps} steps, not {wanted}\n{}", shown(&text)));
    h.towers.take(steps, long as u64, &feed, &text);
}

impl Compares for Harness {
    type Source = Rng;

    const GROUPS: &'static [Group<Harness>] = &[
        ("good programs", good_programs, 40),
        ("programs rich in choice rules", choice_rules, 60),
        ("large programs", large, 1),
        ("refused texts", refused, 10),
        ("limits", around_limits, 1),
        ("chains of calls", chains_of_calls, 2),
        ("chains past every number", endless_chains, 1),
        ("deep nests", deep_nests, 6),
        ("slow walks", slow_walks, 4),
        ("towers", towers, 2),
    ];

    fn tally(&mut self) -> &mut Tally {
        &mut self.tally
    }

    fn report(&mut self, least: u64) {
        tower(self, &mut Rng::new(0, 0), TOWER, 0);
        self.tally.demand_numbers(least, "answer", &[0, 1, 2, 3, 4, 5, 6, 7, 8, 9, 20]);
        let paths = (GREATEST - 2..=GREATEST + 2).map(|figure| format!("a path of {figure}"));
        let things = ["a figure", "not finishing", "47", "depth 32 with a figure", "figure walked"].map(str::to_string);
        self.tally.demand(least, things.into_iter().chain(paths));
        self.tally.demand_numbers(1, "walk", &[0, 22, 30, 31, 32, 33, 34]);
        println!("figures that no slow walk did: {}", self.tally.times("figure not walked"));
        for (name, Nearest { ratio, of }) in [("generated programs", &self.generated), ("towers", &self.towers)] {
            println!("{name}, the most steps for a figure and a stretch: {ratio:.3} of {BOUND} ({of})");
        }
    }
}

fn main() -> ExitCode {
    harness::main("compare_quiet", SEEDS, |exact| {
        let other = ffi::measurer().unwrap_or(&Reference);
        let walker = ffi::library().unwrap_or(&ffi::Plain);
        println!("rust against {}, walks of {}", other.name(), walker.name());
        let (generated, towers) = (Nearest::default(), Nearest::default());
        Harness { other, walkers: vec![&Reference, walker], exact, tally: Tally::default(), generated, towers }
    })
}
