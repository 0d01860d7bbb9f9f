//! What comparisons share: counts of what passed and of what was met, lent bytes between guard bytes, groups over seeds, and the command line.

use crate::ffi;
use crate::files::words;
use crate::random::{self, Rng};
use crate::side::{Inputs, Side};
use crate::tables::bytes;
use crate::texts::Seed;
use crate::walker::{WALK_BYTES, Walk};
use std::collections::BTreeMap;
use std::fmt::Debug;
use std::process::ExitCode;

/// Mismatches that are shown in full.
const SHOWN: u64 = 10;

/// What a comparison has found so far.
#[derive(Default)]
pub struct Tally {
    group: &'static str,
    first: u64,
    seed: u64,
    passed: u64,
    failed: u64,
    met: BTreeMap<String, u64>,
}

impl Tally {
    pub fn expect(&mut self, holds: bool, text: impl FnOnce() -> String) {
        if holds {
            self.passed += 1;
            return;
        }
        self.failed += 1;
        if self.failed <= SHOWN {
            println!("mismatch in {}, seed {}\n{}", self.group, self.seed, text());
        }
    }

    /// Compares one call on both sides into lent bytes: the same answer and the same bytes, and what is read is kept. What this crate,
    /// the second side, answers.
    pub fn both<S: ?Sized, A: PartialEq + Debug>(
        &mut self,
        [other, own]: [&S; 2],
        read: &[&Lent],
        lent: &mut Lent,
        call: impl Fn(&S, &mut [u8]) -> A,
        given: impl FnOnce() -> String,
    ) -> A {
        let mut mine = lent.before().to_vec();
        let answer = call(own, &mut mine);
        let theirs = call(other, lent.bytes_mut());
        let same = lent.is(&mine);
        self.expect(answer == theirs && same && read.iter().all(|read| read.kept()), || {
            let differ = if same { "" } else { "; the lent bytes differ" };
            format!("  {} bytes lent\n  rust:  {answer:?}\n  other: {theirs:?}{differ}\n{}", mine.len(), given())
        });
        answer
    }

    /// How many have passed so far.
    pub fn passed(&self) -> u64 {
        self.passed
    }

    /// How many have failed so far.
    pub fn failed(&self) -> u64 {
        self.failed
    }

    /// The seed that runs.
    pub fn seed(&self) -> u64 {
        self.seed
    }

    /// How many seeds have run before it.
    pub fn seeds_before(&self) -> u64 {
        self.seed - self.first
    }

    /// Counts a thing that the comparison is to meet.
    pub fn met(&mut self, thing: impl ToString) {
        *self.met.entry(thing.to_string()).or_default() += 1;
    }

    /// How often a thing was met.
    pub fn times(&self, thing: &str) -> u64 {
        self.met.get(thing).copied().unwrap_or(0)
    }

    /// Prints how often these were met; one that was met fewer times is a failure.
    pub fn demand(&mut self, least: u64, things: impl IntoIterator<Item: ToString>) {
        let things: Vec<String> = things.into_iter().map(|thing| thing.to_string()).collect();
        let times: Vec<String> = things.iter().map(|thing| format!("{thing} {} times", self.times(thing))).collect();
        println!("met: {}", times.join(", "));
        for thing in things {
            let times = self.times(&thing);
            self.expect(times >= least, || format!("met {times} times, not {least}: {thing}"));
        }
    }

    /// The same for numbers of one kind.
    pub fn demand_numbers(&mut self, least: u64, kind: &str, numbers: &[u16]) {
        self.demand(least, numbers.iter().map(|number| format!("{kind} {number}")));
    }

    /// The last line, and the status.
    pub fn end(&self) -> ExitCode {
        println!("{} passed, {} failed", self.passed, self.failed);
        if self.failed == 0 { ExitCode::SUCCESS } else { ExitCode::FAILURE }
    }
}

/// Bytes that are lent, between others that may not be touched.
pub struct Lent {
    all: Vec<u8>,
    before: Vec<u8>,
    from: usize,
    to: usize,
}

impl Lent {
    /// At an even or odd address; without guard bytes where `exact` is wanted, for a memory checker.
    pub fn new(rng: &mut Rng, contents: &[u8], exact: bool) -> Lent {
        let (before, after) = if exact { (0, 0) } else { (8 + rng.below(2), 24) };
        let mut drawn = |size| -> Vec<u8> { (0..size).map(|_| rng.draw() as u8).collect() };
        let (before, after) = (drawn(before), drawn(after));
        Lent::between(&before, contents, &after)
    }

    /// Between these bytes.
    pub fn between(before: &[u8], contents: &[u8], after: &[u8]) -> Lent {
        let all = [before, contents, after].concat();
        Lent { before: all.clone(), all, from: before.len(), to: before.len() + contents.len() }
    }

    /// Such bytes, random ones.
    pub fn random(rng: &mut Rng, size: usize, exact: bool) -> Lent {
        let contents: Vec<u8> = (0..size).map(|_| rng.draw() as u8).collect();
        Lent::new(rng, &contents, exact)
    }

    pub fn bytes(&self) -> &[u8] {
        &self.all[self.from..self.to]
    }

    pub fn bytes_mut(&mut self) -> &mut [u8] {
        &mut self.all[self.from..self.to]
    }

    /// The lent bytes as they were lent.
    pub fn before(&self) -> &[u8] {
        &self.before[self.from..self.to]
    }

    /// Whether no byte has changed.
    pub fn kept(&self) -> bool {
        self.all == self.before
    }

    /// Whether the lent bytes are these and none around them has changed.
    pub fn is(&self, wanted: &[u8]) -> bool {
        self.bytes() == wanted && self.guarded()
    }

    /// The lent bytes; nothing where one around them has changed.
    pub fn back(&self) -> Option<Vec<u8>> {
        self.guarded().then(|| self.bytes().to_vec())
    }

    fn guarded(&self) -> bool {
        self.all[..self.from] == self.before[..self.from] && self.all[self.to..] == self.before[self.to..]
    }
}

/// Walks a table with tokens and answers that lead on in it and one of the allowances, in whole or in paused calls of all sizes: the last
/// number, and all events.
pub fn walk(rng: &mut Rng, side: &dyn Side, table: &[u8], allowances: &[u16], calls: usize) -> (u16, Vec<[u16; 3]>) {
    let (tokens, answers) = random::lead(rng, table);
    let (tokens, answer_bytes) = (bytes(&tokens), bytes(&answers));
    let inputs = Inputs { table, tokens: &tokens, answers: &answer_bytes };
    let (pauses, allowance) = (rng.once_in(2), rng.pick(allowances));
    let mut walk = vec![0; WALK_BYTES];
    side.fresh(&mut walk, allowance);
    let (mut number, mut all) = (36, Vec::new());
    for _ in 0..calls {
        let mut events = vec![0; 6 * rng.below(60)];
        let budget = rng.within(1, 200) as u64;
        let done = if pauses {
            let used = Walk::decode(&walk).map_or(0, |walk| walk.used as usize);
            let answer = answers.get(used).copied().unwrap_or_else(|| random::answer(rng));
            side.paused(inputs, u16::from(number == 22), answer, budget, &mut walk, &mut events)
        } else {
            side.whole(inputs, budget, &mut walk, &mut events)
        };
        number = done.number;
        all.extend(words(&events).as_chunks().0.iter().take(done.written as usize));
        if !matches!(number, 22 | 35 | 36) {
            break;
        }
    }
    (number, all)
}

/// What the command line asks for.
pub struct Options {
    pub exact: bool,
    trace: bool,
    first: u64,
    seeds: u64,
}

impl Options {
    /// `[--exact] [--trace] [seeds [first seed]]`; nothing where it is none of that.
    pub fn read(arguments: impl IntoIterator<Item = String>, seeds: u64) -> Option<Options> {
        let mut options = Options { exact: false, trace: false, first: 1, seeds };
        let mut numbers = Vec::new();
        for argument in arguments {
            match argument.as_str() {
                "--exact" => options.exact = true,
                "--trace" => options.trace = true,
                text => numbers.push(text.parse::<u64>().ok()?),
            }
        }
        options.seeds = numbers.first().copied().unwrap_or(options.seeds);
        options.first = numbers.get(1).copied().unwrap_or(options.first);
        Some(options)
    }

    /// The answer to a command line that is none.
    pub fn usage(name: &str) -> ExitCode {
        eprintln!("{name} [--exact] [--trace] [seeds [first seed]]");
        ExitCode::from(2)
    }

    /// How often a thing is to be met at the least: once in thirty seeds.
    fn least(&self) -> u64 {
        self.seeds / 30
    }

    /// The seed behind the last one.
    fn end(&self) -> u64 {
        self.first.saturating_add(self.seeds)
    }
}

/// What groups draw from.
pub trait Source {
    /// One for a seed, another for each group.
    fn begun(seed: u64, stream: u64) -> Self;
}

impl Source for Rng {
    fn begun(seed: u64, stream: u64) -> Rng {
        Rng::new(seed, stream)
    }
}

impl Source for Seed {
    fn begun(seed: u64, stream: u64) -> Seed {
        Seed::new(seed ^ (stream << 40))
    }
}

/// A name, a group, and how often a seed runs it.
pub type Group<H> = (&'static str, fn(&mut H, &mut <H as Compares>::Source), usize);

/// A comparison: its groups, its tally, and what it says at the end.
pub trait Compares: Sized + 'static {
    type Source: Source;
    const GROUPS: &'static [Group<Self>];
    fn tally(&mut self) -> &mut Tally;
    /// Prints what was met; what was met fewer times than `least` is a failure.
    fn report(&mut self, least: u64);
}

/// The document that the command line `NAME FILE` names, or the status to end with.
pub fn document(name: &str) -> Result<String, ExitCode> {
    let file = std::env::args().nth(1).unwrap_or_default();
    std::fs::read_to_string(&file).map_err(|error| {
        eprintln!("{name} FILE: {file}: {error}");
        ExitCode::from(2)
    })
}

/// A comparison by the command line. It is begun with whether bytes are to be lent without guard bytes, and prints what stands on both sides.
pub fn main<H: Compares>(name: &str, seeds: u64, begin: impl FnOnce(bool) -> H) -> ExitCode {
    match Options::read(std::env::args().skip(1), seeds) {
        Some(options) => compare(begin(options.exact), &options),
        None => Options::usage(name),
    }
}

/// Runs all groups over all seeds; the last line is `N passed, M failed`, and the status says whether M is 0.
pub fn compare<H: Compares>(mut h: H, options: &Options) -> ExitCode {
    println!("seeds {} to {}", options.first, options.end().saturating_sub(1));
    h.tally().first = options.first;
    for (stream, group) in (1..).zip(H::GROUPS) {
        run(&mut h, group, stream, options);
    }
    h.report(options.least());
    h.tally().end()
}

/// Runs a group over all seeds.
fn run<H: Compares>(h: &mut H, (name, group, times): &Group<H>, stream: u64, options: &Options) {
    let (passed, failed, start) = (h.tally().passed, h.tally().failed, ffi::cpu_seconds());
    h.tally().group = name;
    for seed in options.first..options.end() {
        if options.trace {
            eprintln!("{name}, seed {seed}");
        }
        h.tally().seed = seed;
        let mut source = H::Source::begun(seed, stream);
        (0..*times).for_each(|_| group(h, &mut source));
    }
    let seconds = ffi::cpu_seconds() - start;
    let tally = h.tally();
    println!("{name}: {} passed, {} failed ({seconds:.1} s)", tally.passed - passed, tally.failed - failed);
}
