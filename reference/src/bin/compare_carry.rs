//! Compares the library's carrying of walks to new rules (A.14) with the one of this crate, and what carried walks do with the new rules'
//! own walk from the same places.
//!
//! compare_carry [--exact] [--trace] [seeds [first seed]]
//!
//! `--exact` lends buffers without guard bytes around them, for a memory checker; `--trace` names each group and seed beforehand.
//! Built without the library, this crate stands on both sides, and the plain C walker walks.
#![forbid(unsafe_code)]

use std::collections::HashSet;
use std::process::ExitCode;

use reference::agreement::{Calls, ENDLESS, Run};
use reference::carry::updates::{self, Edit, RULE_EDITS, SECTION_EDITS, Update};
use reference::carry::walks::{self, DAMAGES, Feed};
use reference::carry::worked::{WORKED, walk as walk_at};
use reference::carry::{Carried, Carrier, Carrying, NEW, OLD, RULE, SECTIONS, carry};
use reference::faults::{self, operators};
use reference::ffi;
use reference::harness::{self, Compares, Group, Lent, Tally};
use reference::parts::worked::example;
use reference::processor::marks::{Marked, Marks, RuleName, marks};
use reference::processor::{MAX_TABLE, table};
use reference::quiet::Measurer;
use reference::random::{self, Rng};
use reference::rules::Own;
use reference::rules::places::{self, Sort};
use reference::side::{Reference, Side};
use reference::tables::bytes;
use reference::texts::{self, Seed};
use reference::walker::{MAX_RETURNS, Phase, REFUSED, Walk};

const SEEDS: u64 = 200;
/// Lent bytes for the largest table.
const LARGEST: usize = 2 * MAX_TABLE;
/// The steps of a list of calls before the carrying.
const STEPS: usize = 400;
/// The steps that the rules' own walk of a finishing program may do.
const RULE_STEPS: usize = 1_000_000;
/// The walks that are carried by one update, at the most, but where each place is to be met.
const SOME: usize = 12;

struct Harness {
    other: &'static dyn Carrier,
    measurer: &'static dyn Measurer,
    walker: &'static dyn Side,
    exact: bool,
    tally: Tally,
}

/// Two texts, and what carrying between them gives.
struct Pair {
    old: Vec<u8>,
    new: Vec<u8>,
    between: Result<Carrying, Carried>,
}

impl Pair {
    fn new(old: Vec<u8>, new: Vec<u8>) -> Pair {
        let between = Carrying::between(&old, &new);
        Pair { old, new, between }
    }

    fn shown(&self) -> String {
        format!("  old: {}\n  new: {}", cut(&self.old), cut(&self.new))
    }
}

/// A text, escaped so that it can be read, cut where it is long.
fn cut(text: &[u8]) -> String {
    format!("\"{}\" ({} bytes)", text[..text.len().min(1_200)].escape_ascii(), text.len())
}

/// A program, its table as the library writes it, and its figure, or 0 where it is not finishing or has none.
struct Translated {
    marks: Marks,
    table: Vec<u8>,
    finishing: bool,
    figure: u64,
}

impl Harness {
    /// Compares one carrying; what is answered, and the walk's bytes after it.
    fn check(&mut self, rng: &mut Rng, pair: &Pair, walk: &[u8]) -> (Carried, Vec<u8>) {
        let read = [&pair.old, &pair.new].map(|text| Lent::new(rng, text, self.exact));
        let mut lent = Lent::new(rng, walk, self.exact);
        let theirs = self.other.carry(read[0].bytes(), read[1].bytes(), lent.bytes_mut());
        let mut mine = walk.to_vec();
        let done = carry(&pair.between, &mut mine);
        let same = lent.is(&mine);
        self.tally.expect(done == theirs && same && read.iter().all(Lent::kept), || {
            let differ = if same { "" } else { "; the walk differs" };
            format!("  rust:  {done:?}\n  other: {theirs:?}{differ}\n  {:?}\n{}", Walk::decode(walk), pair.shown())
        });
        // What holds of every answer.
        let told = done.text == 0 && done.start == 0 && done.len == 0;
        let plain = [0, REFUSED, SECTIONS, RULE].contains(&done.number);
        self.tally.expect((done.number == 0 || mine == walk) && told == plain, || format!("  {done:?}\n{}", pair.shown()));
        let text = if plain { String::new() } else { format!(" text {}", done.text) };
        self.tally.met(format!("carry {}{text}", done.number));
        (done, mine)
    }

    /// An accepted program, translated by the library.
    fn translated(&mut self, text: &[u8], marks: Marks) -> Translated {
        let mut table = vec![0xEE; LARGEST];
        let told = self.measurer.measure(text, &mut table);
        table.truncate(2 * told.processed.words as usize);
        self.tally.expect(told.processed.number == 0, || format!("  {told:?}\n  {}", cut(text)));
        Translated { marks, table, finishing: told.processed.finishing == 1, figure: told.figure }
    }

    /// A carried walk goes on as the new rules say from the same places, whole and paused.
    fn goes_on(&mut self, seed: &mut Seed, pair: &Pair, new: &Translated, feed: &Feed, walk: &[u8]) {
        let state = Walk::decode(walk).unwrap_or_default();
        let most = if new.finishing { RULE_STEPS } else { 40 * ENDLESS };
        let Some(own) = places::own(&new.marks.program, &feed.tokens, &feed.answers, &state, most) else {
            return self.tally.expect(false, || format!("  no place of the new rules: {state:?}\n{}", pair.shown()));
        };
        self.tally.expect(own.end.reason.is_some() || !new.finishing, || {
            format!("  a finishing program does not stop: {state:?}\n{}", pair.shown())
        });
        for pauses in [false, true] {
            let run = self.run(seed, new, feed, walk, &own, pauses);
            self.tally.expect(run.agrees, || {
                let (events, end) = (run.events.len() / 6, run.state());
                let rules = format!("{:?} after {} steps", own.end, own.steps);
                let table = format!("{} after {} steps, {events} events, {end:?}", run.number, run.steps);
                format!("  pauses: {pauses}\n  rules: {rules}\n  table: {table}\n  {state:?}\n  {feed:?}\n{}", pair.shown())
            });
            let bound = bound(new, feed, &state);
            self.tally.expect(bound.is_none_or(|bound| u128::from(run.steps) <= bound), || {
                format!("  {} steps, not {bound:?}: {state:?}\n{}", run.steps, pair.shown())
            });
            self.tally.met(if pauses { "gone on, paused" } else { "gone on, whole" });
            self.tally.met(if bound.is_some() { "gone on, below the figure" } else { "gone on, without a figure" });
        }
        if own.end.reason.is_none() {
            self.tally.met("gone on, without end");
        }
    }

    /// A carried walk is carried back to where it was.
    fn comes_back(&mut self, rng: &mut Rng, pair: &Pair, walk: &Walk, carried: &[u8]) {
        let back = Pair::new(pair.new.clone(), pair.old.clone());
        let (done, after) = self.check(rng, &back, carried);
        self.tally
            .expect(done.number == 0 && after == walk.encode(), || format!("  not carried back: {walk:?}\n{}", pair.shown()));
        self.tally.met("carried back");
    }

    /// The calls after the carrying.
    fn run(&mut self, seed: &mut Seed, new: &Translated, feed: &Feed, walk: &[u8], own: &Own, pauses: bool) -> Run {
        let calls = Calls { side: self.walker, table: &new.table, tokens: &feed.tokens, answers: &feed.answers, pauses };
        calls.run(seed, walk.to_vec(), own, |number| self.tally.met(format!("gone on, number {number}")))
    }

    /// Counts what a walk that calls come to is like, as it is carried or not.
    fn count(&mut self, old: &Marks, walk: &Walk, number: u16) {
        let tally = &mut self.tally;
        let sort = places::sort(&old.program, walk.location);
        tally.expect(sort.is_some(), || format!("  no place of the old rules: {walk:?}"));
        if number != 0 {
            return;
        }
        let phase = match walk.phase {
            Phase::Going => "going on",
            Phase::Waiting => "waiting",
            Phase::Stopped(_) => "stopped",
        };
        tally.met(format!("carried {phase}"));
        if let Phase::Stopped(reason) = walk.phase {
            tally.met(format!("carried, stopped with {}", reason as u16));
        }
        if let Some(sort) = sort {
            tally.met(format!("carried at {sort:?}"));
        }
        tally.met(match walk.held {
            0 => "carried with nothing pending",
            1..=9 => "carried with calls pending",
            10..MAX_RETURNS => "carried with ten or more calls pending",
            _ => "carried with 64 calls pending",
        });
    }

    /// Counts rules made for operators among those in progress, and places that move.
    fn count_moves(&mut self, old: &Marks, before: &Walk, after: &Walk) {
        let places = |walk: &Walk| [&[walk.location], &walk.returns[..walk.held]].concat();
        let (from, to) = (places(before), places(after));
        let made = |place: &u16| rule_of(&old.rules, *place).is_some_and(|rule| matches!(rule.name, RuleName::Made { .. }));
        if from.iter().any(made) {
            self.tally.met("a made rule in progress");
        }
        if from.iter().zip(&to).any(|(from, to)| made(from) && from != to) {
            self.tally.met("a made rule in progress has moved");
        }
        if from != to {
            self.tally.met("carried to other locations");
        }
    }
}

/// The steps that a walk with so many tokens unread and repairs left may still need, for a finishing program with a figure.
fn bound(new: &Translated, feed: &Feed, walk: &Walk) -> Option<u128> {
    let unread = (feed.tokens.len() as u64).saturating_sub(walk.read);
    let stretches = u128::from(unread) + u128::from(walk.allowance) + 1;
    (new.figure > 0).then(|| 65 * u128::from(new.figure) * stretches)
}

/// The rule in which a location lies.
fn rule_of(rules: &[Marked], place: u16) -> Option<&Marked> {
    rules.iter().find(|rule| (rule.start..rule.start + rule.marks.len()).contains(&usize::from(place)))
}

/// Why the first place that is not carried is not.
fn why(old: &Marks, new: &Marks, carrying: &Carrying, walk: &Walk) -> &'static str {
    let mut places = [walk.location].into_iter().chain(walk.returns[..walk.held].iter().copied());
    let Some(place) = places.find(|place| carrying.location(*place).is_none()) else { return "nothing" };
    match rule_of(&old.rules, place) {
        None if place == 0 => "52 for location 0",
        None => "52 for a place past the rules",
        Some(rule) => match (&rule.name, new.rules.iter().any(|other| other.name == rule.name)) {
            (RuleName::Written(_), false) => "52 for a rule that is gone",
            (RuleName::Written(_), true) => "52 for a rule that differs",
            (RuleName::Made { .. }, false) => "52 for a made rule that is gone",
            (RuleName::Made { .. }, true) => "52 for a made rule that differs",
        },
    }
}

/// Walks over an update that calls come to: all places at which they stand, or some.
fn carry_reached(h: &mut Harness, rng: &mut Rng, seed: &mut Seed, update: Update, all: bool) {
    let pair = Pair::new(update.old, update.new);
    let Ok(old) = marks(&pair.old) else { return };
    let old_table = bytes(&table(&old.program).0);
    let new = marks(&pair.new).ok().map(|marks| h.translated(&pair.new, marks));
    let feed = Feed::new(seed, &old.program);
    let mut reached = walks::reached(&old_table, &feed, seed.one_in(2), STEPS);
    let mut seen = HashSet::new();
    reached.retain(|walk| seen.insert((walk.encode()[..6].to_vec(), walk.held)));
    let most = if all { usize::MAX } else { SOME };
    while reached.len() > most {
        reached.swap_remove(seed.below(reached.len()));
    }
    for walk in reached {
        let (done, after) = h.check(rng, &pair, &walk.encode());
        h.count(&old, &walk, done.number);
        update.edits.iter().for_each(|edit| h.tally.met(format!("{edit}: {}", done.number)));
        match (done.number, &new, &pair.between) {
            (0, Some(new), _) => {
                let state = Walk::decode(&after).unwrap_or_default();
                h.count_moves(&old, &walk, &state);
                h.tally.expect(pair.old != pair.new || after == walk.encode(), || {
                    format!("  not equal: {walk:?}\n{}", pair.shown())
                });
                h.goes_on(seed, &pair, new, &feed, &after);
                if seed.one_in(6) {
                    h.comes_back(rng, &pair, &walk, &after);
                }
            }
            (RULE, Some(new), Ok(carrying)) => h.tally.met(why(&old, &new.marks, carrying, &walk)),
            _ => {}
        }
    }
}

/// Updates of the rules alone, and walks at some of the places that calls come to.
fn rules_updated(h: &mut Harness, rng: &mut Rng) {
    let mut seed = Seed::new(rng.draw());
    let update = Update::new(&mut seed, &RULE_EDITS);
    carry_reached(h, rng, &mut seed, update, false);
}

/// Walks at every place that a list of calls comes to, where most or all of them are carried.
fn every_place(h: &mut Harness, rng: &mut Rng) {
    let mut seed = Seed::new(rng.draw());
    let gentle: Vec<(&str, Edit)> = RULE_EDITS
        .into_iter()
        .filter(|(name, _)| ["respelled", "reordered", "inserted", "another pair first"].contains(name))
        .collect();
    let update = Update::new(&mut seed, &gentle);
    carry_reached(h, rng, &mut seed, update, true);
}

/// Long texts, large tables, and programs at the limits.
fn large(h: &mut Harness, rng: &mut Rng) {
    if !h.tally.seed().is_multiple_of(4) {
        return;
    }
    let mut seed = Seed::new(rng.draw());
    let old = updates::large_text(&mut seed);
    let update = Update::of(&mut seed, old, &RULE_EDITS);
    for marks in [marks(&update.old), marks(&update.new)].into_iter().flatten() {
        h.tally.met(match marks.rules.iter().map(|rule| rule.marks.len()).sum() {
            0..=1_000 => "a small table",
            1_001..=4_000 => "a large table",
            _ => "over 4,000 words",
        });
        h.tally.met(if marks.rules.len() > 100 { "over 100 rules" } else { "100 rules or fewer" });
    }
    h.tally.met(if update.old.len() > 16_000 { "over 16,000 bytes" } else { "16,000 bytes or fewer" });
    carry_reached(h, rng, &mut seed, update, false);
}

/// Updates of the sections.
fn sections_updated(h: &mut Harness, rng: &mut Rng) {
    let mut seed = Seed::new(rng.draw());
    let update = Update::new(&mut seed, &SECTION_EDITS);
    carry_reached(h, rng, &mut seed, update, false);
}

/// Walks that no calls come to: any places, ones that are all carried, and all but one of them.
fn made_up(h: &mut Harness, rng: &mut Rng) {
    let mut seed = Seed::new(rng.draw());
    let Update { old, new, .. } = Update::new(&mut seed, &RULE_EDITS);
    let pair = Pair::new(old, new);
    let (Ok(old), Ok(new), Ok(carrying)) = (marks(&pair.old), marks(&pair.new), &pair.between) else { return };
    let words = old.rules.iter().map(|rule| rule.marks.len()).sum();
    let locations = carrying.carried_locations();
    for sort in 0..8 {
        let mut walk =
            if sort < 3 || locations.is_empty() { random::made_up(rng, words, 20, 20) } else { walks::among(rng, &locations) };
        if sort > 5 {
            let other = random::made_up(rng, words, 20, 20).location;
            let at = rng.below(walk.held + 1);
            *walk.returns[..walk.held].get_mut(at).unwrap_or(&mut walk.location) = other;
        }
        let (done, after) = h.check(rng, &pair, &walk.encode());
        if done.number == RULE {
            h.tally.met(format!("made up: {}", why(&old, &new, carrying, &walk)));
            continue;
        }
        if pair.old == pair.new {
            h.tally.expect(after == walk.encode(), || format!("  not equal: {walk:?}\n{}", pair.shown()));
            h.tally.met("made up: equal");
        }
        let sort = places::sort(&old.program, walk.location);
        h.tally.met(if sort.is_some() { "made up: carried at a place" } else { "made up: carried inside an instruction" });
        h.tally.met(if walk.held == MAX_RETURNS { "made up: carried with 64 pending" } else { "made up: carried" });
    }
}

/// A text that is not accepted, as a rule, from one that is.
fn at_fault(seed: &mut Seed, good: &[u8]) -> Vec<u8> {
    match seed.below(12) {
        0 => updates::over_long(seed, good),
        1 => updates::over_large(good),
        2 | 3 => {
            let sort = seed.below(operators::SORTS);
            operators::plant(seed, sort).text
        }
        4 => {
            let mut text = good.to_vec();
            texts::damage(seed, &mut text);
            text
        }
        5 => Vec::new(),
        _ => {
            let sort = seed.below(faults::SORTS);
            faults::plant(seed, sort).text
        }
    }
}

/// Texts that are not accepted: the old one, the new one, both.
fn refused(h: &mut Harness, rng: &mut Rng) {
    let mut seed = Seed::new(rng.draw());
    let Update { mut old, mut new, .. } = Update::new(&mut seed, &RULE_EDITS);
    let which = seed.below(3);
    if which != 1 {
        old = at_fault(&mut seed, &old);
    }
    if which != 0 {
        new = at_fault(&mut seed, &new);
    }
    let pair = Pair::new(old, new);
    let both = which == 2 && marks(&pair.old).is_err() && marks(&pair.new).is_err();
    let walk = if seed.one_in(2) { Walk::mending(3) } else { random::made_up(rng, 40, 5, 5) };
    let (done, _) = h.check(rng, &pair, &walk.encode());
    if both {
        h.tally.expect(done.text == OLD, || format!("  {done:?} where both are at fault\n{}", pair.shown()));
        h.tally.met("both texts at fault");
    }
}

/// Bytes that are no walk, which comes before the texts.
fn no_walk(h: &mut Harness, rng: &mut Rng) {
    let mut seed = Seed::new(rng.draw());
    let Update { old, mut new, .. } = Update::new(&mut seed, &RULE_EDITS);
    let bad = seed.one_in(3);
    if bad {
        new = at_fault(&mut seed, &new);
    }
    let pair = Pair::new(old, new);
    for (way, name) in DAMAGES.iter().enumerate() {
        let walk = random::made_up(rng, 40, 5, 5);
        let bytes = walks::damaged(rng, &walk, way);
        let (done, _) = h.check(rng, &pair, &bytes);
        h.tally.expect(done == Carried::only(REFUSED), || format!("  {done:?}: {name}"));
        h.tally.met(format!("21 for {name}"));
    }
    if bad && pair.between.as_ref().is_err_and(|told| told.text == NEW) {
        h.tally.met("21 before a text at fault");
    }
    // Single bytes of a walk changed: still one, or none.
    for _ in 0..8 {
        let mut bytes = random::made_up(rng, 40, 5, 5).encode();
        bytes[rng.below(bytes.len())] ^= 1 << rng.below(8);
        h.check(rng, &pair, &bytes);
    }
}

/// The worked examples of the readings, each text behind something that is no word.
fn worked(h: &mut Harness, rng: &mut Rng) {
    let before = rng.pick::<&[u8]>(&[b"", b"\n", b" \t", b"% rules end\n", b"%'\r\n   "]);
    for (number, old, new, places, carried) in WORKED.iter().copied() {
        let (mut texts, fault) = example(number, &[old, new], before);
        let new = texts.remove(1);
        let pair = Pair::new(texts.remove(0), new);
        let wanted = fault.map_or(Carried::only(number), |fault| Carried {
            number,
            text: fault.text as u64 + OLD,
            start: fault.start as u64,
            len: fault.len as u64,
        });
        let (done, after) = h.check(rng, &pair, &walk_at(places).encode());
        let right = if number == 0 { walk_at(carried) } else { walk_at(places) };
        h.tally.expect(done == wanted && after == right.encode(), || format!("  {done:?}, not {wanted:?}\n{}", pair.shown()));
    }
}

/// The sorts of places that calls come to.
const SORTS: [Sort; 10] = [
    Sort::Action,
    Sort::CycleEnd,
    Sort::AlternativeEnd,
    Sort::RuleEnd,
    Sort::Returning,
    Sort::Given,
    Sort::Chooses,
    Sort::NoLabel,
    Sort::Required,
    Sort::Repaired,
];

impl Compares for Harness {
    type Source = Rng;

    const GROUPS: &'static [Group<Harness>] = &[
        ("worked examples", worked, 1),
        ("rules updated", rules_updated, 10),
        ("every place that calls come to", every_place, 4),
        ("sections updated", sections_updated, 3),
        ("large programs", large, 1),
        ("made-up walks", made_up, 8),
        ("texts at fault", refused, 24),
        ("no walks", no_walk, 1),
    ];

    fn tally(&mut self) -> &mut Tally {
        &mut self.tally
    }

    fn report(&mut self, least: u64) {
        let tally = &mut self.tally;
        tally.demand_numbers(least, "carry", &[0, REFUSED, SECTIONS, RULE]);
        for text in [OLD, NEW] {
            tally.demand(least, [1, 2, 3, 4, 5, 6, 7, 8, 9, 20, 45].map(|number| format!("carry {number} text {text}")));
        }
        tally.demand(least, ["both texts at fault", "21 before a text at fault"]);
        tally.demand(least, DAMAGES.map(|way| format!("21 for {way}")));
        tally.demand(least, ["going on", "waiting", "stopped"].map(|phase| format!("carried {phase}")));
        tally.demand_numbers(least, "carried, stopped with", &[0, 30, 31, 32, 33, 34]);
        tally.demand(least, SORTS.map(|sort| format!("carried at {sort:?}")));
        let pending = ["nothing pending", "calls pending", "ten or more calls pending", "64 calls pending"];
        tally.demand(least, pending.map(|pending| format!("carried with {pending}")));
        tally.demand(
            least,
            ["a made rule in progress", "a made rule in progress has moved", "carried to other locations", "carried back"],
        );
        tally.demand(least, RULE_EDITS.map(|(edit, _)| format!("{edit}: 0")));
        let differ = RULE_EDITS[2..].iter().filter(|(edit, _)| !["reordered", "inserted", "another pair first"].contains(edit));
        tally.demand(least, differ.map(|(edit, _)| format!("{edit}: {RULE}")).collect::<Vec<String>>());
        tally.demand(least.min(1), ["a small table", "a large table", "over 4,000 words", "over 100 rules", "over 16,000 bytes"]);
        tally.demand(least, SECTION_EDITS.map(|(edit, _)| format!("{edit}: {SECTIONS}")));
        let reasons = ["a rule that is gone", "a rule that differs", "a made rule that is gone"];
        tally.demand(least, reasons.map(|reason| format!("52 for {reason}")));
        // With equal sections it has the same words.
        tally.expect(tally.times("52 for a made rule that differs") == 0, || "a made rule differs".to_string());
        let reasons = ["location 0", "a place past the rules", "a rule that is gone", "a rule that differs"];
        tally.demand(least, reasons.map(|reason| format!("made up: 52 for {reason}")));
        let kinds = ["equal", "carried at a place", "carried inside an instruction", "carried", "carried with 64 pending"];
        tally.demand(least, kinds.map(|kind| format!("made up: {kind}")));
        tally.demand(
            least,
            ["whole", "paused", "without end", "below the figure", "without a figure"].map(|kind| format!("gone on, {kind}")),
        );
        tally.demand_numbers(least, "gone on, number", &[0, 22, 30, 31, 32, 33, 34, 35, 36]);
    }
}

fn main() -> ExitCode {
    harness::main("compare_carry", SEEDS, |exact| {
        let h = Harness {
            other: ffi::carrier().unwrap_or(&Reference),
            measurer: ffi::measurer().unwrap_or(&Reference),
            walker: ffi::library().unwrap_or(&ffi::Plain),
            exact,
            tally: Tally::default(),
        };
        println!("rust against {}, walks of {}", h.other.name(), h.walker.name());
        h
    })
}
