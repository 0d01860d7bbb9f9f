//! Compares the walker of this crate with the library, or with the plain C walker, call by call.
//!
//! compare [--against lib|c] [--exact] [--trace] [seeds [first seed]]
//!
//! `--exact` lends buffers without guard bytes around them, for a memory checker; `--trace` names each group and seed beforehand.
#![forbid(unsafe_code)]

use std::collections::BTreeMap;
use std::fmt::Write;
use std::process::ExitCode;

use reference::ffi;
use reference::harness::{self, Compares, Group, Lent, Options, Tally};
use reference::random::{self, Rng};
use reference::side::{Inputs, Reference, Side};
use reference::tables::{assemble, bytes};
use reference::walker::{self, Done, Phase, WALK_BYTES, Walk};

const SEEDS: u64 = 6000;
const NAME: &str = "compare [--against lib|c]";
/// A walk that has not ended after so many steps is given no huge budget.
const BOUND: u64 = 600;
const GUARD: u8 = 0x5A;
const HUGE: [u64; 6] = [1 << 16, 1 << 32, (1 << 63) - 1, 1 << 63, u64::MAX - 1, u64::MAX];

/// Bytes that are only read, at an even or odd address.
#[derive(Clone, PartialEq)]
struct List {
    all: Box<[u8]>,
    from: usize,
    to: usize,
}

impl List {
    /// Now and then with an odd last byte. Around them stand words that do harm if they are read.
    fn new(rng: &mut Rng, exact: bool, words: &[u16]) -> List {
        let mut all = vec![];
        for _ in 0..if exact { 0 } else { 4 } {
            all.extend(rng.pick(&[4, 9, 256, 0u16]).to_be_bytes());
        }
        if rng.once_in(2) {
            all.insert(0, 0);
        }
        let from = all.len();
        all.extend(bytes(words));
        if rng.once_in(3) {
            all.push(rng.pick(&[0, 1, 9, 255]));
        }
        let to = all.len();
        for _ in 0..if exact { 0 } else { 8 } {
            all.extend(rng.pick(&[4, 9, 256, 0u16]).to_be_bytes());
        }
        List { all: all.into_boxed_slice(), from, to }
    }

    fn bytes(&self) -> &[u8] {
        &self.all[self.from..self.to]
    }
}

/// What a call reads.
#[derive(Clone, PartialEq)]
struct Case {
    table: List,
    tokens: List,
    answers: List,
}

impl Case {
    fn new(h: &Harness, rng: &mut Rng, table: &[u16], tokens: &[u16], answers: &[u16]) -> Case {
        let mut list = |words| List::new(rng, h.exact, words);
        Case { table: list(table), tokens: list(tokens), answers: list(answers) }
    }

    fn inputs(&self) -> Inputs<'_> {
        Inputs { table: self.table.bytes(), tokens: self.tokens.bytes(), answers: self.answers.bytes() }
    }

    fn words(&self) -> usize {
        self.inputs().table.len() / 2
    }

    /// A walk made up from nothing, or from one under way with some of its parts changed.
    fn made_up(&self, rng: &mut Rng) -> Walk {
        let inputs = self.inputs();
        let other = random::made_up(rng, inputs.table.len() / 2, inputs.tokens.len() / 2, inputs.answers.len() / 2);
        if rng.once_in(3) {
            return other;
        }
        let mut walk = Walk::fresh();
        let budget = rng.below(60) as u64;
        walker::whole(inputs.table, inputs.tokens, inputs.answers, budget, &mut walk, &mut [0; 360]);
        if !rng.once_in(6) {
            walk.phase = other.phase;
        }
        if rng.once_in(3) {
            (walk.returns, walk.held) = (other.returns, other.held);
        }
        if rng.once_in(4) {
            walk.result = other.result;
        }
        if rng.once_in(3) {
            walk.parameter = other.parameter;
        }
        if rng.once_in(3) {
            walk.read = other.read;
        }
        if rng.once_in(3) {
            walk.used = other.used;
        }
        if rng.once_in(2) {
            walk.allowance = other.allowance;
        }
        walk
    }

    /// The k-th answer, if there is one.
    fn answer(&self, k: u64) -> Option<u16> {
        let answers = self.inputs().answers.as_chunks::<2>().0;
        answers.get(usize::try_from(k).ok()?).copied().map(u16::from_be_bytes)
    }
}

#[derive(Clone, Copy, Debug)]
enum Kind {
    Whole,
    Paused { given: u16, answer: u16 },
}

const PLAIN: Kind = Kind::Paused { given: 0, answer: 0 };

/// A call, but for what it reads.
struct Call<'a> {
    kind: Kind,
    budget: u64,
    walk: &'a [u8],
    /// The bytes of the event buffer.
    size: usize,
}

/// What a call leaves.
#[derive(PartialEq)]
struct Left {
    done: Done,
    walk: Vec<u8>,
    events: Vec<u8>,
}

/// A lent buffer between so many guard bytes.
fn lent(contents: &[u8], before: usize, after: usize) -> Lent {
    Lent::between(&vec![GUARD; before], contents, &vec![GUARD; after])
}

/// The bytes that an event buffer holds before a call.
fn fill(size: usize) -> Vec<u8> {
    (0..size).map(|i| (i as u8).wrapping_mul(37) ^ 0xB1).collect()
}

struct Harness {
    other: &'static dyn Side,
    exact: bool,
    tally: Tally,
    /// How often each number was answered.
    numbers: BTreeMap<u16, u64>,
}

impl Harness {
    /// One call of one side; `None` where it wrote outside its buffers.
    fn run(&self, side: &dyn Side, case: &Case, call: &Call) -> Option<Left> {
        let turn = self.tally.passed() as usize;
        let (before, after) = if self.exact { (0, 0) } else { (8 + turn % 2, 24) };
        let mut walk = lent(call.walk, before, after);
        let mut events = lent(&fill(call.size), before + turn / 2 % 2, after);
        let done = match call.kind {
            Kind::Whole => side.whole(case.inputs(), call.budget, walk.bytes_mut(), events.bytes_mut()),
            Kind::Paused { given, answer } => {
                side.paused(case.inputs(), given, answer, call.budget, walk.bytes_mut(), events.bytes_mut())
            }
        };
        Some(Left { done, walk: walk.back()?, events: events.back()? })
    }

    /// Compares one call on both sides; what this crate's walker left.
    fn check(&mut self, case: &Case, call: &Call) -> Left {
        let mine = self.run(&Reference, case, call);
        let theirs = self.run(self.other, case, call);
        self.tally.expect(mine == theirs && mine.is_some(), || show(case, call, &mine, &theirs));
        let mine = mine.unwrap_or(Left { done: Done { number: 0, written: 0, steps: 0 }, walk: vec![], events: vec![] });
        *self.numbers.entry(mine.done.number).or_default() += 1;
        mine
    }

    /// What is only read may not change.
    fn unchanged(&mut self, case: &Case, before: &Case) {
        self.tally.expect(case == before, || "a table, tokens or answers were written to".to_string());
    }
}

fn show(case: &Case, call: &Call, mine: &Option<Left>, theirs: &Option<Left>) -> String {
    let inputs = case.inputs();
    let mut text = String::new();
    let mut line = |name: &str, value: String| {
        let _ = writeln!(text, "  {name}: {value}");
    };
    line("call", format!("{:?}, budget {}, event buffer of {} bytes", call.kind, call.budget, call.size));
    line("table", listed(inputs.table));
    line("tokens", listed(inputs.tokens));
    line("answers", listed(inputs.answers));
    line("walk before", listed(call.walk));
    for (name, left) in [("rust", mine), ("other", theirs)] {
        match left {
            None => line(name, "wrote outside its buffers".to_string()),
            Some(left) => {
                line(name, format!("{:?}", left.done));
                line("  walk", listed(&left.walk));
                line("  events", listed(&left.events));
            }
        }
    }
    text
}

/// Words of bytes, and an odd last byte.
fn listed(bytes: &[u8]) -> String {
    let (words, odd) = bytes.as_chunks::<2>();
    let mut text = format!("{} bytes:", bytes.len());
    for word in words {
        let _ = write!(text, " {}", u16::from_be_bytes(*word));
    }
    if let [odd] = odd {
        let _ = write!(text, " and byte {odd}");
    }
    text
}

/// The bytes of a buffer that most walks do not fill.
const ROOMY: usize = 6 * BOUND as usize + 6;

fn fresh() -> Vec<u8> {
    Walk::fresh().encode().to_vec()
}

/// A case with a table of the sort, and tokens and answers that lead on in it.
fn case_of(h: &Harness, rng: &mut Rng, sort: usize) -> Case {
    let table = match sort {
        0 => random::structured(rng, 40),
        1 => random::damaged(rng, 40),
        _ => random::foreign(rng, 60),
    };
    let (tokens, answers) = random::lead(rng, &bytes(&table));
    Case::new(h, rng, &table, &tokens, &answers)
}

/// The size of an event buffer.
fn size(rng: &mut Rng) -> usize {
    random::event_bytes(rng, 8, ROOMY)
}

fn budget(rng: &mut Rng) -> u64 {
    match rng.below(3) {
        0 => rng.below(6) as u64,
        1 => rng.below(60) as u64,
        _ => BOUND,
    }
}

/// `given` for an answer: any number but 0.
fn given(rng: &mut Rng) -> u16 {
    rng.pick(&[1, 1, 1, 1, 2, 256, 32768, 65535])
}

/// A whole call with huge budgets, where the walk ends without.
fn huge(h: &mut Harness, rng: &mut Rng, case: &Case, kind: Kind, walk: &[u8]) {
    let left = h.check(case, &Call { kind, budget: BOUND, walk, size: ROOMY });
    if left.done.number != 36 {
        let budget = rng.pick(&HUGE);
        h.check(case, &Call { kind, budget, walk, size: ROOMY });
        h.check(case, &Call { kind, budget, walk, size: size(rng) });
    }
}

/// A paused walk to its end, with budgets and buffers as they come.
fn pauses(h: &mut Harness, rng: &mut Rng, case: &Case, from: &[u8]) {
    let mut walk = from.to_vec();
    for _ in 0..40 {
        let state = Walk::decode(&walk);
        let waits = state.as_ref().is_some_and(|walk| walk.phase == Phase::Waiting);
        let kind = if waits {
            let used = state.map_or(0, |walk| walk.used);
            let answer = case.answer(used).unwrap_or_else(|| random::answer(rng));
            Kind::Paused { given: given(rng), answer }
        } else {
            Kind::Paused { given: 0, answer: rng.word() }
        };
        let left = h.check(case, &Call { kind, budget: budget(rng), walk: &walk, size: size(rng) });
        walk = left.walk;
        if !matches!(left.done.number, 22 | 35 | 36) {
            break;
        }
    }
}

fn explore(h: &mut Harness, rng: &mut Rng, sort: usize) {
    let case = case_of(h, rng, sort);
    let before = case.clone();
    let start = fresh();
    huge(h, rng, &case, Kind::Whole, &start);
    huge(h, rng, &case, PLAIN, &start);
    for _ in 0..12 {
        h.check(&case, &Call { kind: Kind::Whole, budget: budget(rng), walk: &start, size: size(rng) });
    }
    for _ in 0..2 {
        pauses(h, rng, &case, &start);
    }
    h.unchanged(&case, &before);
}

fn structured(h: &mut Harness, rng: &mut Rng) {
    explore(h, rng, 0);
}

fn damaged(h: &mut Harness, rng: &mut Rng) {
    explore(h, rng, 1);
}

fn foreign(h: &mut Harness, rng: &mut Rng) {
    explore(h, rng, 2);
}

/// Walks that no walker made, on all sorts of tables.
fn made_up(h: &mut Harness, rng: &mut Rng) {
    for sort in [0, 1, 2] {
        let case = case_of(h, rng, sort);
        let before = case.clone();
        for _ in 0..60 {
            let state = case.made_up(rng);
            let walk = state.encode();
            let right = state.phase == Phase::Waiting;
            let given = if right != rng.once_in(8) { given(rng) } else { 0 };
            let kind = if rng.once_in(2) { Kind::Whole } else { Kind::Paused { given, answer: random::answer(rng) } };
            h.check(&case, &Call { kind, budget: budget(rng), walk: &walk, size: size(rng) });
            if rng.once_in(6) {
                huge(h, rng, &case, kind, &walk);
            }
        }
        h.unchanged(&case, &before);
    }
}

/// Every instruction at every place of a small table, with the walk on it.
fn instructions(h: &mut Harness, rng: &mut Rng) {
    let numbers = [0, 1, 2, 3, 4, 5, 6, 7, 8, 9, 10, 11, 12, 13, 14, 255, 256, 511, 512, 767, 768, 1023, 1024, 1279, 1280, 65535];
    let words = rng.within(1, 9);
    for at in 0..words {
        for number in numbers {
            let mut table: Vec<u16> = (0..words).map(|_| rng.below(6) as u16).collect();
            table[at] = number;
            for word in table.iter_mut().skip(at + 1).take(4) {
                match rng.below(8) {
                    0 | 1 => *word = rng.below(words + 3) as u16,
                    2 => *word = random::wrapping(rng),
                    _ => {}
                }
            }
            let tokens: Vec<u16> = (0..rng.below(3)).map(|_| rng.below(6) as u16).collect();
            let answers: Vec<u16> = (0..rng.below(3)).map(|_| rng.below(6) as u16).collect();
            let case = Case::new(h, rng, &table, &tokens, &answers);
            let mut state = case.made_up(rng);
            state.phase = Phase::Going;
            state.location = at as u16 + 1;
            let walk = state.encode();
            let size = rng.pick(&[0, 5, 6, 7, 12]);
            for kind in [Kind::Whole, PLAIN] {
                for budget in [0, 1, 2] {
                    h.check(&case, &Call { kind, budget, walk: &walk, size });
                }
            }
        }
    }
}

/// A choice whose labels lead to the table's ends and past them, in a table that ends near the choice table's end. Now and then the
/// choice table stands before the choice, where only a distance cut to 16 bits leads, or its count is right only if doubled in 16 bits.
fn labels(h: &mut Harness, rng: &mut Rng) {
    let before = rng.below(4);
    let count = rng.below(5);
    let behind = rng.once_in(6);
    let instruction = rng.pick(&[7, 11]);
    let mut table: Vec<u16> = (0..before).map(|_| rng.pick(&[4, 9, 256])).collect();
    if !behind {
        table.extend([instruction, 1]);
    }
    let first = table.len() + 1;
    table.push(count as u16 | if rng.once_in(8) { 1 << 15 } else { 0 });
    for label in 0..count {
        let here = table.len() + 2;
        let distance = match rng.below(6) {
            0 => here + 1,
            1 => here,
            2 => here - 1,
            3 => rng.below(here),
            4 => 0,
            _ => usize::from(random::wrapping(rng)),
        };
        table.extend([label as u16, distance as u16]);
    }
    let mut location = before + 1;
    if behind {
        table.push(9);
        location = table.len() + 1;
        table.extend([instruction, (first as u16).wrapping_sub(location as u16 + 1)]);
    } else {
        let end = table.len();
        table.extend([4, 9]);
        table.truncate(end - rng.below(2) + rng.below(3));
    }
    let tokens = [rng.below(count + 1) as u16];
    let case = Case::new(h, rng, &table, &tokens, &[]);
    let mut state = case.made_up(rng);
    state.phase = Phase::Going;
    state.location = location as u16;
    state.read = rng.below(2) as u64;
    for result in 0..=count {
        state.result = result as u16;
        for budget in [1, 2, 5] {
            h.check(&case, &Call { kind: Kind::Whole, budget, walk: &state.encode(), size: 60 });
        }
    }
}

/// A case of any sort, a walk over it, and a call of both kinds that fits the walk.
fn both_kinds(h: &Harness, rng: &mut Rng) -> (Case, [u8; WALK_BYTES], [Kind; 2]) {
    let sort = rng.pick(&[0, 0, 0, 1, 2]);
    let case = case_of(h, rng, sort);
    let state = if rng.once_in(2) { Walk::fresh() } else { case.made_up(rng) };
    let answer = Kind::Paused { given: 1, answer: random::answer(rng) };
    let paused = if state.phase == Phase::Waiting { answer } else { PLAIN };
    (case, state.encode(), [Kind::Whole, paused])
}

/// All budgets from 0 on.
fn budgets(h: &mut Harness, rng: &mut Rng) {
    let (case, walk, kinds) = both_kinds(h, rng);
    for kind in kinds {
        for budget in 0..=80 {
            let left = h.check(&case, &Call { kind, budget, walk: &walk, size: ROOMY });
            if budget > left.done.steps + 2 {
                break;
            }
        }
        huge(h, rng, &case, kind, &walk);
    }
}

/// All sizes of event buffers from 0 bytes on.
fn buffers(h: &mut Harness, rng: &mut Rng) {
    let (case, walk, kinds) = both_kinds(h, rng);
    for kind in kinds {
        for size in 0..=90 {
            let left = h.check(&case, &Call { kind, budget: BOUND, walk: &walk, size });
            if size > 6 * left.done.written as usize + 8 {
                break;
            }
        }
    }
}

/// Lists of calls of both kinds, each on the walk that the last one gave back; now and then with another table.
fn lists(h: &mut Harness, rng: &mut Rng) {
    let sort = rng.pick(&[0, 0, 0, 1, 2]);
    let case = case_of(h, rng, sort);
    let stranger = case_of(h, rng, 2);
    let mut walk = if rng.once_in(4) { case.made_up(rng).encode().to_vec() } else { fresh() };
    for _ in 0..rng.within(2, 24) {
        let waits = Walk::decode(&walk).is_some_and(|walk| walk.phase == Phase::Waiting);
        let right = !rng.once_in(10);
        let answer = random::answer(rng);
        let kind = match (waits == right, rng.once_in(2)) {
            (true, _) => Kind::Paused { given: given(rng), answer },
            (false, true) => Kind::Paused { given: 0, answer },
            (false, false) => Kind::Whole,
        };
        let case = if rng.once_in(20) { &stranger } else { &case };
        let left = h.check(case, &Call { kind, budget: budget(rng), walk: &walk, size: size(rng) });
        walk = left.walk;
    }
}

/// Tables around 4,096 words, and far longer ones; walks near the end.
fn sizes(h: &mut Harness, rng: &mut Rng) {
    let words = if rng.once_in(8) { rng.within(65530, 70000) } else { rng.within(4088, 4104) };
    let mut table = vec![0; words];
    let end = words.min(4096);
    let from = end - rng.within(4, 40);
    for word in &mut table[from..] {
        *word = match rng.below(8) {
            0..=3 => random::instruction(rng),
            4 | 5 => rng.below(10) as u16,
            6 => rng.within(4085, 4100) as u16,
            _ => rng.word(),
        };
        if words > 65000 {
            *word = if rng.once_in(2) { 4 } else { 9 };
        }
    }
    if rng.once_in(2) {
        // A program whose last word comes near 4,096.
        let rules = random::rules(rng, 40);
        let last = 4092 + rng.below(8);
        let origin = last.saturating_sub(assemble(&rules, 1).len()).clamp(2, words);
        for (place, word) in table[origin..].iter_mut().zip(assemble(&rules, origin + 1)) {
            *place = word;
        }
        table[1] = (origin - 1) as u16;
    } else if rng.once_in(2) {
        // A choice whose table, or default, comes near the last word.
        let labels = rng.below(7);
        let first = end + rng.below(4) - 2 * labels - 2;
        let at = first - rng.within(3, 30);
        let choice = [rng.pick(&[7, 11]), (first - at - 1) as u16];
        table[at - 1..at + 1].copy_from_slice(&choice);
        let pairs = (0..labels).flat_map(|label| [label as u16, rng.within(1, 40) as u16]);
        let choice_table = std::iter::once(labels as u16).chain(pairs.collect::<Vec<u16>>());
        for (place, word) in table[first - 1..].iter_mut().zip(choice_table) {
            *place = word;
        }
        table[1] = (at - 2) as u16;
    } else {
        table[1] = (from - 1 + rng.below(8)) as u16;
    }
    table[0] = 1;
    let tokens: Vec<u16> = (0..rng.below(12)).map(|_| random::token(rng)).collect();
    let answers: Vec<u16> = (0..rng.below(12)).map(|_| random::answer(rng)).collect();
    let case = Case::new(h, rng, &table, &tokens, &answers);
    let start = fresh();
    huge(h, rng, &case, Kind::Whole, &start);
    pauses(h, rng, &case, &start);
    for _ in 0..24 {
        let mut state = case.made_up(rng);
        if !rng.once_in(4) {
            state.location = rng.within(from.max(4080), 4100) as u16;
            state.phase = Phase::Going;
        }
        let walk = state.encode();
        let kind = if rng.once_in(2) { Kind::Whole } else { PLAIN };
        let budget = rng.pick(&[1, 1, 2, 3, BOUND]);
        h.check(&case, &Call { kind, budget, walk: &walk, size: size(rng) });
    }
    // One step at each of the last locations, and past them.
    let last = case.words().min(4096);
    for location in last.saturating_sub(3)..=last + 2 {
        let state = Walk { location: location as u16, ..Walk::fresh() };
        h.check(&case, &Call { kind: Kind::Whole, budget: 1, walk: &state.encode(), size: 6 });
    }
}

/// More than 65,536 tokens, answers, events and steps.
fn long(h: &mut Harness, rng: &mut Rng) {
    if !h.tally.seed().is_multiple_of(16) {
        return;
    }
    let count = rng.within(65530, 70000);
    let tokens: Vec<u16> = (0..count).map(|_| random::token(rng)).collect();
    let answers: Vec<u16> = (0..count).map(|_| rng.word()).collect();
    // Reads a token, asks, emits, goes back.
    let case = Case::new(h, rng, &[4, 768, 5, 7, 2, 5], &tokens, &answers);
    let start = fresh();
    let size = 12 * count + 12;
    for budget in [rng.within(4 * 65530, 4 * 65540) as u64, u64::MAX] {
        let left = h.check(&case, &Call { kind: Kind::Whole, budget, walk: &start, size });
        h.check(&case, &Call { kind: Kind::Whole, budget: 9, walk: &left.walk, size });
    }
    let case = Case::new(h, rng, &[4, 256, 2, 3], &tokens, &[]);
    for size in [6 * 65535, 6 * 65536 + 5, 6 * count + 12] {
        h.check(&case, &Call { kind: PLAIN, budget: u64::MAX, walk: &start, size });
    }
    // One match, choice or operation far behind.
    for _ in 0..40 {
        let read = rng.within(65530, count + 2);
        let token = tokens.get(read).copied().unwrap_or(3);
        let table = match rng.below(4) {
            0 => vec![3, token, 9],
            1 => vec![7, 1, 1, token, 5, 9],
            2 => vec![4, 9],
            _ => vec![768, 9],
        };
        let case = Case::new(h, rng, &table, &tokens, &answers);
        let state = Walk { read: read as u64, used: read as u64, ..Walk::fresh() };
        h.check(&case, &Call { kind: Kind::Whole, budget: 1, walk: &state.encode(), size: 6 });
    }
}

/// Bytes that are no walk, or hardly one: every word damaged, and other lengths.
fn no_walk(h: &mut Harness, rng: &mut Rng) {
    let case = case_of(h, rng, 0);
    let good = case.made_up(rng).encode();
    let call = |h: &mut Harness, rng: &mut Rng, walk: &[u8]| {
        let kind = match rng.below(4) {
            0 | 1 => Kind::Whole,
            2 => PLAIN,
            _ => Kind::Paused { given: 1, answer: 1 },
        };
        let left = h.check(&case, &Call { kind, budget: rng.below(4) as u64, walk, size: size(rng).min(100) });
        let refused = left.done.number == 21;
        h.tally.expect(!refused || (left.walk == walk && left.events == fill(left.events.len())), || {
            format!("the refusing walker of this crate changed a buffer: {}", listed(walk))
        });
        parts_of(h, walk);
    };
    for word in 0..WALK_BYTES / 2 {
        for _ in 0..3 {
            let mut walk = good;
            let old = u16::from_be_bytes([walk[2 * word], walk[2 * word + 1]]);
            let value = match rng.below(6) {
                0 => rng.word(),
                1 => rng.below(4) as u16,
                2 => old ^ 1 << rng.below(16),
                3 => rng.pick(&[21, 22, 29, 30, 34, 35, 36, 37, 38, 63, 64, 65, 256, 65535]),
                4 => old.wrapping_add(1),
                _ => 0,
            };
            walk[2 * word..2 * word + 2].copy_from_slice(&value.to_be_bytes());
            call(h, rng, &walk);
        }
    }
    // Every phase with every reason that is near.
    for phase in 0..4u16 {
        for reason in (0..2).chain(20..40).chain([255, 256, 286, 65535]) {
            let mut walk = good;
            walk[..4].copy_from_slice(&bytes(&[phase, reason]));
            call(h, rng, &walk);
        }
    }
    let long: Vec<u8> = good.iter().copied().cycle().take(400).collect();
    for length in [0, 1, 2, 5, 27, 28, 78, 79, 154, 156, 157, 159, 160, 316, rng.below(400)] {
        call(h, rng, &long[..length]);
    }
    for _ in 0..4 {
        let walk: Vec<u8> = (0..WALK_BYTES).map(|_| if rng.once_in(3) { rng.word() as u8 } else { 0 }).collect();
        call(h, rng, &walk);
    }
}

/// Compares the readers of a walk's parts.
fn parts_of(h: &mut Harness, walk: &[u8]) {
    fn parts(side: &dyn Side, walk: &[u8]) -> (u16, u16, u16, u64, u64, u16) {
        (side.phase(walk), side.reason(walk), side.location(walk), side.read(walk), side.used(walk), side.allowance(walk))
    }
    let lent: Box<[u8]> = walk.into();
    let (mine, theirs) = (parts(&Reference, &lent), parts(h.other, &lent));
    h.tally
        .expect(mine == theirs && *lent == *walk, || format!("  walk: {}\n  rust: {mine:?}\n  other: {theirs:?}", listed(walk)));
}

/// The readers on walks, and the writer of fresh walks.
fn parts(h: &mut Harness, rng: &mut Rng) {
    for _ in 0..40 {
        parts_of(h, &random::made_up(rng, 20, 20, 20).encode());
    }
    let near = rng.below(400);
    for length in [0, 1, 2, 3, 6, 100, 156, 157, 158, 159, 160, 316, near] {
        let (before, after) = if h.exact { (0, 0) } else { (8, 200) };
        let mut mine = lent(&fill(length), before, after);
        let mut theirs = lent(&fill(length), before, after);
        let allowance = rng.word();
        let numbers = (Reference.fresh(mine.bytes_mut(), allowance), h.other.fresh(theirs.bytes_mut(), allowance));
        let (mine, theirs) = (mine.back(), theirs.back());
        let same = numbers.0 == numbers.1 && mine.is_some() && mine == theirs;
        h.tally.expect(same, || format!("  fresh of {length} bytes: rust {}, other {}", numbers.0, numbers.1));
    }
}

/// What a run of calls leaves: the last number, the walk, all events, all steps.
#[derive(PartialEq)]
struct Run {
    number: u16,
    walk: Vec<u8>,
    events: Vec<u8>,
    steps: u64,
}

impl Run {
    fn new(walk: &[u8]) -> Run {
        Run { number: 36, walk: walk.to_vec(), events: vec![], steps: 0 }
    }

    /// One more call; false where it wrote outside its buffers.
    fn go(&mut self, h: &Harness, side: &dyn Side, case: &Case, kind: Kind, budget: u64, size: usize) -> bool {
        let Some(left) = h.run(side, case, &Call { kind, budget, walk: &self.walk, size }) else { return false };
        let end = (left.done.written as usize).saturating_mul(6).min(left.events.len());
        self.events.extend_from_slice(&left.events[..end]);
        self.number = left.done.number;
        self.walk = left.walk;
        self.steps = self.steps.wrapping_add(left.done.steps);
        true
    }
}

/// On each side alone: one call does what its pieces do, and a whole walk agrees with a paused one fed the same answers.
fn agreement(h: &mut Harness, rng: &mut Rng) {
    let sort = rng.pick(&[0, 0, 0, 1, 2]);
    let case = case_of(h, rng, sort);
    let mut state = if rng.once_in(2) { Walk::fresh() } else { case.made_up(rng) };
    if state.phase == Phase::Waiting {
        state.phase = Phase::Going;
    }
    let start = state.encode();
    let budget = rng.below(120) as u64;
    let text = |what: &str, run: &Run, one: &Run| {
        let inputs = case.inputs();
        let lists = [("table", inputs.table), ("tokens", inputs.tokens), ("answers", inputs.answers), ("walk", &start)];
        let mut text = format!("  {what}, budget {budget}\n");
        for (name, bytes) in lists {
            let _ = writeln!(text, "  {name}: {}", listed(bytes));
        }
        for run in [run, one] {
            let _ = writeln!(text, "  number {}, steps {}\n    walk {}", run.number, run.steps, listed(&run.walk));
            let _ = writeln!(text, "    events {}", listed(&run.events));
        }
        text
    };
    for side in [&Reference as &dyn Side, h.other] {
        let mut one = Run::new(&start);
        let mut fine = one.go(h, side, &case, Kind::Whole, budget, ROOMY);

        let mut pieces = Run::new(&start);
        for _ in 0..2000 {
            let piece = (rng.below(9) as u64).min(budget.saturating_sub(pieces.steps));
            let size = rng.below(20);
            fine &= pieces.go(h, side, &case, Kind::Whole, piece, size);
            let goes_on = pieces.number == 35 || (pieces.number == 36 && pieces.steps < budget);
            if !goes_on || !fine {
                break;
            }
        }
        h.tally.expect(fine && pieces == one, || text(&format!("{} in pieces", side.name()), &pieces, &one));

        let mut paused = Run::new(&start);
        let mut kind = PLAIN;
        for _ in 0..2000 {
            let left = budget.saturating_sub(paused.steps);
            fine &= paused.go(h, side, &case, kind, left, ROOMY);
            let used = Walk::decode(&paused.walk).map_or(0, |walk| walk.used);
            match case.answer(used) {
                Some(answer) if paused.number == 22 && fine => kind = Kind::Paused { given: 1, answer },
                _ => break,
            }
        }
        let agree = if one.number == 34 && state.phase == Phase::Going {
            let counts = |run: &Run| Walk::decode(&run.walk).map(|walk| (walk.read, walk.used, walk.held));
            let before = paused.events.len().saturating_sub(6);
            paused.number == 22
                && paused.steps == one.steps
                && counts(&paused) == counts(&one)
                && paused.events[..before] == one.events[..]
        } else {
            paused == one
        };
        h.tally.expect(fine && agree, || text(&format!("{} paused and whole", side.name()), &paused, &one));
    }
}

impl Compares for Harness {
    type Source = Rng;

    const GROUPS: &'static [Group<Harness>] = &[
        ("structured tables", structured, 6),
        ("damaged tables", damaged, 6),
        ("foreign tables", foreign, 10),
        ("made-up walks", made_up, 1),
        ("each instruction", instructions, 1),
        ("labels", labels, 12),
        ("budgets", budgets, 6),
        ("event buffers", buffers, 6),
        ("lists of calls", lists, 12),
        ("table sizes", sizes, 3),
        ("long walks", long, 1),
        ("bytes that are no walk", no_walk, 1),
        ("parts", parts, 1),
        ("pieces and pauses", agreement, 12),
    ];

    fn tally(&mut self) -> &mut Tally {
        &mut self.tally
    }

    fn report(&mut self, _least: u64) {
        let seen: Vec<String> = self.numbers.iter().map(|(number, times)| format!("{number} {times} times")).collect();
        println!("answered: {}", seen.join(", "));
    }
}

/// Takes `--against` and its word out of the command line: the word, or nothing.
fn against(arguments: &mut Vec<String>) -> Option<String> {
    let at = arguments.iter().position(|argument| argument == "--against")?;
    let word = arguments.drain(at..arguments.len().min(at + 2)).nth(1);
    Some(word.unwrap_or_default())
}

fn main() -> ExitCode {
    let mut arguments: Vec<String> = std::env::args().skip(1).collect();
    let other: &dyn Side = match (against(&mut arguments).as_deref(), ffi::library()) {
        (None | Some("lib"), Some(library)) => library,
        (None, None) | (Some("c"), _) => &ffi::Plain,
        (Some("lib"), None) => {
            eprintln!("built without the library");
            return ExitCode::from(2);
        }
        _ => return Options::usage(NAME),
    };
    let Some(options) = Options::read(arguments, SEEDS) else { return Options::usage(NAME) };
    println!("rust against {}", other.name());
    harness::compare(Harness { other, exact: options.exact, tally: Tally::default(), numbers: BTreeMap::new() }, &options)
}
