//! Compares the library's processor with the one of this crate, text by text, and the walks over its tables with the rules' own walk.
//!
//! compare_texts [--exact] [--trace] [seeds [first seed]]
//!
//! `--exact` lends buffers without guard bytes around them, for a memory checker; `--trace` names each group and seed beforehand.
//! Built without the library, this crate's processor stands on both sides, and the plain C walker walks.
#![forbid(unsafe_code)]

use std::collections::BTreeMap;
use std::process::ExitCode;

use reference::agreement::{Calls, ENDLESS};
use reference::before;
use reference::choosers;
use reference::faults::{self, Fault};
use reference::ffi;
use reference::harness::{self, Compares, Group, Lent, Tally};
use reference::limits::{self, LIMITS};
use reference::pairs::{self, BESIDE, Case, Limit, Sample};
use reference::processor::resolve;
use reference::programs;
use reference::rules::{self, Own};
use reference::side::{Processed, Processor, Reference, Side};
use reference::tables::bytes;
use reference::texts::{self, Seed, VOCABULARY, Words};
use reference::walker::WALK_BYTES;

const SEEDS: u64 = 900;
/// Lent bytes for the largest table.
const LARGEST: usize = 2 * 4_096;
/// The steps that the rules' own walk may do; the table of a rule step has at most three instructions.
const RULE_STEPS: usize = 1_000_000;

/// The numbers that the comparison must meet: those of the processor, and those of a walk.
const NUMBERS: [u16; 11] = [0, 1, 2, 3, 4, 5, 6, 7, 8, 9, 20];
const WALK_NUMBERS: [u16; 9] = [0, 22, 30, 31, 32, 33, 34, 35, 36];

/// A count for each thing met.
type Counts<K> = BTreeMap<K, u64>;

fn count<K: Ord>(counts: &mut Counts<K>, key: K) {
    *counts.entry(key).or_default() += 1;
}

struct Harness {
    processor: &'static dyn Processor,
    walker: &'static dyn Side,
    exact: bool,
    tally: Tally,
    met: Met,
}

/// How often things were met.
#[derive(Default)]
struct Met {
    numbers: Counts<u16>,
    verdicts: Counts<u64>,
    /// The verdicts of programs rich in choice rules, with those before returned values were looked at.
    choosers: Counts<(bool, bool)>,
    /// Those of large ones: whether the table has more than 2,048 words, and the verdict.
    large: Counts<(bool, bool)>,
    planted: Counts<u16>,
    limits: Counts<(usize, isize)>,
    pairs: Counts<(Limit, Limit)>,
    beside: Counts<(Limit, usize)>,
    /// The limits in whose texts the two processors differ.
    differing: Counts<String>,
    sizes: Counts<&'static str>,
    walks: Counts<u16>,
    endless: u64,
    finished: u64,
    /// Walks with a repair; of these the ones that stop with 30, the allowance used up.
    repaired: u64,
    used_up: u64,
}

impl Harness {
    /// Bytes between others that do harm if they are read or written.
    fn lent(&self, contents: &[u8], guard: &[u8]) -> Lent {
        let (before, after): (&[u8], &[u8]) = if self.exact { (&[], &[]) } else { (guard, b" ; end 'x' % \n{[|") };
        Lent::between(before, contents, after)
    }

    /// Compares one call on both sides, the lent bytes being random; what this crate's processor answers.
    fn check(&mut self, seed: &mut Seed, text: &[u8], size: usize) -> Processed {
        let mut random = vec![0; size];
        seed.fill(&mut random);
        let guard = &b"rules M:"[seed.below(2)..];
        let read = self.lent(text, guard);
        let mut table = self.lent(&random, &guard[seed.below(2)..]);
        let done = self.tally.both(
            [self.processor, &Reference],
            &[&read],
            &mut table,
            |side, table| side.process(read.bytes(), table),
            || shown(text),
        );
        count(&mut self.met.numbers, done.number);
        if done.number == 0 {
            count(&mut self.met.verdicts, done.finishing);
        }
        done
    }

    /// Such a call with a buffer that is large enough, or one of any size.
    fn check_any(&mut self, seed: &mut Seed, text: &[u8]) -> Processed {
        let size = match seed.below(8) {
            0 => seed.below(8),
            1 => seed.below(200),
            2 => LARGEST + seed.below(40),
            _ => 600 + seed.below(400),
        };
        self.check(seed, text, size)
    }
}

/// A text, escaped so that it can be read, cut where it is long.
fn shown(text: &[u8]) -> String {
    let cut = &text[..text.len().min(1_500)];
    format!("  text of {} bytes: \"{}\"", text.len(), cut.escape_ascii())
}

/// Good programs of every shape.
fn programs(h: &mut Harness, seed: &mut Seed) {
    for _ in 0..40 {
        let size = 3 + seed.below(80);
        let words = texts::good(seed, size);
        let text = texts::join(seed, &words);
        let done = h.check(seed, &text, LARGEST);
        h.tally.expect(done.number == 0, || format!("a good program is refused: {done:?}\n{}", shown(&text)));
    }
}

/// Programs of up to 32 KB, also with a few bytes or words changed.
fn large(h: &mut Harness, seed: &mut Seed) {
    let bytes = if seed.one_in(3) { seed.within(8_000, 32_768) } else { seed.within(1_024, 8_000) };
    let mut text = if seed.one_in(6) {
        let sort = seed.below(programs::HARD.len());
        programs::hard(sort, bytes).text
    } else {
        programs::typical(seed, bytes).text
    };
    h.check(seed, &text, LARGEST);
    for _ in 0..2 {
        let (at, to) = (seed.below(text.len()), seed.below(text.len()));
        match seed.below(5) {
            0 => text.swap(at, to),
            1 => text[at] = b' ',
            2 => _ = text.remove(at),
            3 => text.truncate(at.max(1)),
            _ => text[at] = *seed.of(b"';%}>a"),
        }
        h.check(seed, &text, LARGEST);
    }
}

/// Each fault planted, with the number and the part that it was planted with.
fn planted(h: &mut Harness, seed: &mut Seed) {
    for sort in 0..faults::SORTS {
        let Fault { number, text, start, len } = faults::plant(seed, sort);
        let done = h.check_any(seed, &text);
        let wanted = Processed { number, start: start as u64, len: len as u64, words: 0, finishing: 0 };
        h.tally.expect(done == wanted, || format!("  planted {wanted:?}\n  found {done:?}\n{}", shown(&text)));
        count(&mut h.met.planted, number);
    }
    // 20 is planted by the buffer.
    let words = texts::good(seed, 20);
    let text = texts::join(seed, &words);
    let words = h.check(seed, &text, LARGEST).words as usize;
    let room = 2 * seed.below(words) + seed.below(2);
    let done = h.check(seed, &text, room);
    let wanted = Processed { number: 20, start: text.len() as u64, len: 0, words: 0, finishing: 0 };
    h.tally.expect(done == wanted, || format!("  planted {wanted:?}\n  found {done:?}\n{}", shown(&text)));
    count(&mut h.met.planted, 20);
}

/// Several faults in one text: the one that comes first counts.
fn several(h: &mut Harness, seed: &mut Seed) {
    for _ in 0..60 {
        let text = faults::several(seed);
        h.check_any(seed, &text);
    }
}

/// Words changed, or bytes changed, here and there.
fn damaged(h: &mut Harness, seed: &mut Seed) {
    for _ in 0..120 {
        let size = 4 + seed.below(40);
        let text = texts::text(seed, size);
        h.check_any(seed, &text);
    }
}

/// A good program of few words.
fn small(seed: &mut Seed) -> Words {
    loop {
        let size = 4 + seed.below(12);
        let words = texts::good(seed, size);
        if words.len() < 70 {
            return words;
        }
    }
}

/// Each byte of a text in turn left out, put in twice, replaced, and the text ended before it.
fn each_byte(h: &mut Harness, seed: &mut Seed) {
    if !h.tally.seed().is_multiple_of(4) {
        return;
    }
    let words = small(seed);
    let text = texts::join(seed, &words);
    for at in 0..text.len() {
        let byte = *seed.of(b"'%_$\n\r\t \0\"\\+<>!*:;|aZ09\x0c\xff=(),.#@?[]{}");
        for text in texts::damaged_at(&text, at, byte, seed.below(8)) {
            h.check_any(seed, &text);
        }
    }
}

/// Each word of a text in turn left out, put in twice, exchanged with the next, replaced, and the text ended before it.
fn each_word(h: &mut Harness, seed: &mut Seed) {
    if !h.tally.seed().is_multiple_of(2) {
        return;
    }
    let words = small(seed);
    for at in 0..words.len() {
        let other = seed.of(&VOCABULARY).as_bytes().to_vec();
        let own = words[seed.below(words.len())].clone();
        let mut swapped = vec![words[at].clone()];
        swapped.splice(0..0, words.get(at + 1).cloned());
        let edits = [
            (words.len(), vec![]),
            (at + 1, vec![]),
            (at, vec![words[at].clone()]),
            ((at + 2).min(words.len()), swapped),
            (at, vec![other.clone()]),
            (at + 1, vec![other]),
            (at, vec![own.clone()]),
            (at + 1, vec![own]),
        ];
        for (to, with) in edits {
            let mut words = words.clone();
            words.splice(at..to, with);
            let text = texts::join(seed, &words);
            h.check_any(seed, &text);
        }
    }
}

/// Bytes and words without order.
fn random(h: &mut Harness, seed: &mut Seed) {
    let alphabet = b"abMN01_'%\n\t :;,=()[]{}|*?.#@>!";
    for _ in 0..20 {
        let mut text = vec![0; seed.below(200)];
        seed.fill(&mut text);
        h.check_any(seed, &text);
        for byte in &mut text {
            *byte = *seed.of(alphabet);
        }
        h.check_any(seed, &text);
        let mut words: Words = (0..seed.below(60)).map(|_| seed.of(&VOCABULARY).as_bytes().to_vec()).collect();
        let text = texts::join(seed, &words);
        h.check_any(seed, &text);
        words.splice(0..0, b"input : a b ; rules M :".split(|byte| *byte == b' ').map(<[u8]>::to_vec));
        let text = texts::join(seed, &words);
        h.check_any(seed, &text);
    }
    if h.tally.seed().is_multiple_of(16) {
        let mut text = vec![0; seed.within(32_700, 32_900)];
        seed.fill(&mut text);
        h.check_any(seed, &text);
    }
}

/// Every limit: one less, at it, one past it, far past it.
fn around_limits(h: &mut Harness, seed: &mut Seed) {
    for (limit, (name, most)) in LIMITS.into_iter().enumerate() {
        for sample in limits::samples(seed, limit) {
            let size = LARGEST + seed.below(6);
            let done = h.check(seed, &sample.text, size);
            let number = sample.number.unwrap_or(0);
            let amount = sample.amount;
            h.tally.expect(done.number == number, || format!("  {name}, {amount} of {most}: {done:?}\n{}", shown(&sample.text)));
            if done.number == number {
                count(&mut h.met.limits, (limit, (amount as isize - most as isize).min(2)));
            }
        }
    }
}

/// One of the texts with two limits passed, or one passed beside another fault.
fn pair(h: &mut Harness, seed: &mut Seed, case: &Case, sample: &Sample) {
    let Sample { text, planted, passed, beside } = sample;
    let failed = h.tally.failed();
    let size = LARGEST + seed.below(6);
    let done = h.check(seed, text, size);
    if h.tally.failed() > failed {
        count(&mut h.met.differing, case.limits().join(" + "));
    }
    if let Some((number, start, len)) = *planted {
        let wanted = Processed { number, start: start as u64, len: len as u64, words: 0, finishing: 0 };
        h.tally.expect(done == wanted, || format!("  {passed:?}: {done:?}, not {wanted:?}\n{}", shown(text)));
        if done != wanted {
            return;
        }
    }
    pairs::pairs(passed).into_iter().for_each(|pair| count(&mut h.met.pairs, pair));
    beside.iter().for_each(|beside| count(&mut h.met.beside, *beside));
}

/// Entries and rules that pass two limits at once, or one beside a word that is at fault by itself. All of them, at some seeds.
fn two_limits(h: &mut Harness, seed: &mut Seed) {
    if !h.tally.seeds_before().is_multiple_of(450) {
        return;
    }
    for case in pairs::cases() {
        let plain = case.plain(seed);
        for sample in std::iter::once(plain).chain(case.beside(seed)) {
            pair(h, seed, &case, &sample);
        }
    }
}

/// Texts that are far beyond a limit all through.
fn beyond_limits(h: &mut Harness, seed: &mut Seed) {
    if !h.tally.seed().is_multiple_of(10) {
        return;
    }
    for (text, number) in limits::beyond() {
        for size in [LARGEST, 2 * 70_000] {
            let done = h.check(seed, &text, size);
            h.tally.expect(done.number == number, || format!("  {done:?}, not {number}\n{}", shown(&text)));
        }
    }
}

/// Every lent size around the table's own, small ones, odd ones, and ones beyond the largest table.
fn lent_sizes(h: &mut Harness, seed: &mut Seed) {
    let size = 3 + seed.below(60);
    let words = texts::good(seed, size);
    let mut text = texts::join(seed, &words);
    let limit = seed.one_in(4);
    if limit {
        let mut samples = limits::samples(seed, 2);
        let sample = seed.below(3);
        text = samples.swap_remove(sample).text;
    }
    let own = 2 * (h.check(seed, &text, LARGEST + 7).words as usize);
    let beyond = LARGEST + seed.below(600);
    let around = (0..=8).map(|i| (own + i).saturating_sub(4));
    let sizes: Vec<usize> = around.chain([0, 1, 2, 3, own / 2, LARGEST - 1, LARGEST, LARGEST + 1, LARGEST + 2, beyond]).collect();
    for size in sizes {
        let done = h.check(seed, &text, size);
        let fits = own > 0 && size / 2 * 2 >= own;
        h.tally.expect((done.number == 0) == fits, || {
            format!("  {size} bytes lent for a table of {own}: {done:?}\n{}", shown(&text))
        });
        let sort = match (size, size.cmp(&own)) {
            (0, _) => "none",
            (1, _) => "one byte",
            (_, _) if size >= LARGEST + 2 => "beyond 4,096 words",
            (_, std::cmp::Ordering::Less) if size % 2 == 1 => "too small, odd",
            (_, std::cmp::Ordering::Less) => "too small",
            (_, std::cmp::Ordering::Equal) => "the table's own",
            _ if size % 2 == 1 => "larger, odd",
            _ => "larger",
        };
        count(&mut h.met.sizes, sort);
    }
    // A refusal zeroes all words, however many.
    texts::damage(seed, &mut text);
    for size in [0, 1, 7, LARGEST + 3] {
        h.check(seed, &text, size);
    }
}

/// What a walk is fed.
struct Feed<'a> {
    text: &'a [u8],
    table: &'a [u8],
    tokens: &'a [u16],
    answers: &'a [u16],
    allowance: u16,
}

/// One walk over a table in calls of any budget and buffer, compared with the rules' own walk after each call.
fn table_walk(h: &mut Harness, seed: &mut Seed, feed: &Feed, own: &Own, pauses: bool) {
    let Feed { text, table, tokens, answers, allowance } = *feed;
    let calls = Calls { side: h.walker, table, tokens, answers, pauses };
    let mut walk = vec![0xEE; WALK_BYTES];
    h.walker.fresh(&mut walk, allowance);
    let run = calls.run(seed, walk, own, |number| count(&mut h.met.walks, number));
    match own.end.reason {
        None => h.met.endless += 1,
        Some(reason) => {
            let repaired = own.end.allowance < allowance;
            h.met.repaired += u64::from(repaired);
            h.met.used_up += u64::from(repaired && reason == 30);
        }
    }
    let mut wanted: Vec<u8> = own.end.events.iter().flat_map(|event| bytes(event)).collect();
    wanted.truncate(120);
    let walk = run.state();
    h.tally.expect(run.agrees, || {
        format!(
            "  pauses: {pauses}\n  rules: {:?} after {} steps, read {}, used {}, events {wanted:?}\n  table: {} after {} steps, read {}, used {}, \
             events {:?}\n  tokens {tokens:?}\n  answers {answers:?}\n{}",
            own.end.reason,
            own.steps,
            own.end.read,
            own.end.used,
            run.number,
            run.steps,
            walk.read,
            walk.used,
            &run.events[..run.events.len().min(120)],
            shown(text)
        )
    });
}

/// Accepted programs walked: their table, as the library wrote it, whole and in pauses, against the rules' own walk. One that is finishing stops.
fn walks(h: &mut Harness, seed: &mut Seed) {
    for round in 0..24 {
        let text = match round {
            0 | 1 => {
                let bytes = seed.within(1_024, 4_000);
                programs::typical(seed, bytes).text
            }
            2 | 3 => programs::CHOICES.into(),
            _ => {
                let size = 6 + seed.below(80);
                let words = texts::good(seed, size);
                texts::join(seed, &words)
            }
        };
        let mut table = vec![0xEE; LARGEST];
        let done = h.processor.process(&text, &mut table);
        table.truncate(2 * done.words as usize);
        let Ok(program) = resolve(&text) else { continue };
        h.tally.expect(done.number == 0, || format!("a good program is refused: {done:?}\n{}", shown(&text)));
        for _ in 0..3 {
            let (tokens, answers) = texts::feed(seed, &program);
            let most = if done.finishing == 1 { RULE_STEPS } else { 40 * ENDLESS };
            let allowance = if seed.one_in(2) { 0 } else { seed.below(30) as u16 };
            let own = Own::new(&program, &tokens, &answers, allowance, most);
            if done.finishing == 1 {
                h.tally.expect(own.end.reason.is_some(), || format!("a finishing program does not stop\n{}", shown(&text)));
                h.met.finished += 1;
            }
            let feed = Feed { text: &text, table: &table, tokens: &tokens, answers: &answers, allowance };
            table_walk(h, seed, &feed, &own, false);
            table_walk(h, seed, &feed, &own, true);
        }
    }
}

/// Programs rich in choice rules. One that was finishing before returned values were looked at still is; one that is finishing only since
/// then stops too.
fn choice_rules(h: &mut Harness, seed: &mut Seed) {
    for _ in 0..120 {
        let program = choosers::program(seed);
        let text = choosers::text(&program).into_bytes();
        let done = h.check(seed, &text, 1_024);
        let (before, now) = (before::finishing(&program), done.finishing == 1);
        h.tally.expect(done.number == 0, || format!("a good program is refused: {done:?}\n{}", shown(&text)));
        h.tally.expect(now || !before, || format!("a program is no longer finishing\n{}", shown(&text)));
        count(&mut h.met.choosers, (before, now));
        if now && !before && seed.one_in(4) {
            let (tokens, answers) = texts::feed(seed, &program);
            let allowance = seed.below(4) as u16;
            let end = rules::walk(&program, &tokens, &answers, allowance, RULE_STEPS);
            h.tally.expect(end.reason.is_some(), || format!("a finishing program does not stop\n{}", shown(&text)));
        }
    }
}

/// Programs of up to 4,096 words and 127 choice rules that are finishing by returned values, but for a slip here and there.
fn large_choice_rules(h: &mut Harness, seed: &mut Seed) {
    let slips = seed.one_in(2);
    let program = choosers::large(seed, slips);
    let text = choosers::text(&program).into_bytes();
    let done = h.check(seed, &text, LARGEST);
    h.tally.expect(matches!(done.number, 0 | 20), || format!("a good program is refused: {done:?}\n{}", shown(&text)));
    h.tally
        .expect(slips || done.number != 0 || done.finishing == 1, || format!("not finishing without a slip\n{}", shown(&text)));
    if done.number == 0 {
        count(&mut h.met.large, (done.words > 2_048, done.finishing == 1));
    }
}

/// Prints how often each thing was met, and fails for one that never was.
fn report(h: &mut Harness) {
    let met = &h.met;
    let mut never: Vec<String> = Vec::new();
    let mut line = |head: &str, things: Vec<(String, u64)>| {
        let items: Vec<String> = things.iter().map(|(name, times)| format!("{name} {times} times")).collect();
        println!("{head}: {}", items.join(", "));
        never.extend(things.into_iter().filter(|(_, times)| *times == 0).map(|(name, _)| format!("{head}: {name}")));
    };
    let times = |counts: &Counts<u16>, numbers: &[u16]| -> Vec<(String, u64)> {
        numbers.iter().map(|number| (number.to_string(), counts.get(number).copied().unwrap_or(0))).collect()
    };
    line("answered", times(&met.numbers, &NUMBERS));
    let verdict = |value: u64| met.verdicts.get(&value).copied().unwrap_or(0);
    line("finishing", vec![("yes".to_string(), verdict(1)), ("no".to_string(), verdict(0))]);
    let chooser = |before, now| met.choosers.get(&(before, now)).copied().unwrap_or(0);
    let both = [("yes", chooser(true, true)), ("no", chooser(false, false)), ("yes by returned values", chooser(false, true))];
    line("programs rich in choice rules", both.map(|(name, times)| (name.to_string(), times)).to_vec());
    let large = |size, now| met.large.get(&(size, now)).copied().unwrap_or(0);
    let sizes = [
        ("yes", large(false, true)),
        ("no", large(false, false)),
        ("large, yes", large(true, true)),
        ("large, no", large(true, false)),
    ];
    line("programs with up to 127 choice rules", sizes.map(|(name, times)| (name.to_string(), times)).to_vec());
    line("planted", times(&met.planted, &NUMBERS[1..]));
    for (limit, (name, most)) in LIMITS.into_iter().enumerate() {
        let side = |past: isize| (format!("{}", most as isize + past), met.limits.get(&(limit, past)).copied().unwrap_or(0));
        line(&format!("limit of {name}"), vec![side(-1), side(0), side(1)]);
    }
    let sizes =
        ["none", "one byte", "too small", "too small, odd", "the table's own", "larger", "larger, odd", "beyond 4,096 words"];
    line("lent", sizes.iter().map(|size| (size.to_string(), met.sizes.get(size).copied().unwrap_or(0))).collect());
    line("walk calls answered", times(&met.walks, &WALK_NUMBERS));
    line("walks", vec![("of finishing programs".to_string(), met.finished), ("without end".to_string(), met.endless)]);
    line(
        "repairs",
        vec![("walks with some".to_string(), met.repaired), ("to the end of the allowance".to_string(), met.used_up)],
    );
    never.extend(pairs_never_met(met));
    for name in never {
        h.tally.expect(false, || format!("never met: {name}"));
    }
    for (limits, times) in &met.differing {
        println!("the two differ in {times} texts with {limits}");
    }
}

/// Prints how many of the pairs were met; the ones that never were.
fn pairs_never_met(met: &Met) -> Vec<String> {
    let (pairs, beside) = (pairs::wanted(), pairs::wanted_beside());
    let together = pairs.iter().filter(|pair| !met.pairs.contains_key(*pair)).map(|(a, b)| format!("{a}, together with {b}"));
    let by_a_fault = beside.iter().filter(|beside| !met.beside.contains_key(*beside));
    let by_a_fault = by_a_fault.map(|(limit, sort)| format!("{limit}, {}", BESIDE[*sort]));
    let never: Vec<String> = together.chain(by_a_fault).collect();
    let all = pairs.len() + beside.len();
    println!("two limits at once, or one beside another fault: {} of {all} pairs met", all - never.len());
    never
}

impl Compares for Harness {
    type Source = Seed;

    const GROUPS: &'static [Group<Harness>] = &[
        ("good programs", programs, 1),
        ("large programs", large, 1),
        ("planted faults", planted, 1),
        ("several faults", several, 1),
        ("damaged texts", damaged, 1),
        ("each byte damaged", each_byte, 1),
        ("each word damaged", each_word, 1),
        ("random bytes and words", random, 1),
        ("limits", around_limits, 1),
        ("two limits at once", two_limits, 1),
        ("far beyond the limits", beyond_limits, 1),
        ("lent sizes", lent_sizes, 1),
        ("walks", walks, 1),
        ("choice rules", choice_rules, 1),
        ("large programs with choice rules", large_choice_rules, 1),
    ];

    fn tally(&mut self) -> &mut Tally {
        &mut self.tally
    }

    fn report(&mut self, _least: u64) {
        report(self);
    }
}

fn main() -> ExitCode {
    harness::main("compare_texts", SEEDS, |exact| {
        let processor = ffi::processor().unwrap_or(&Reference);
        let walker = ffi::library().unwrap_or(&ffi::Plain);
        println!("rust against {}, walks of {}", processor.name(), walker.name());
        Harness { processor, walker, exact, tally: Tally::default(), met: Met::default() }
    })
}
