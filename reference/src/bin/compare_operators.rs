//! Compares the library's processor with the one of this crate on texts with operators under precedence, and walks sums to postfix order.
//!
//! compare_operators [--exact] [--trace] [seeds [first seed]]
//!
//! Built without the library, this crate's processor stands on both sides, and the plain C walker walks.
#![forbid(unsafe_code)]

use std::process::ExitCode;

use reference::faults::{Fault, entries, operators as faults};
use reference::ffi;
use reference::figures::{Figures, ROW_BYTES, SHORT};
use reference::harness::{self, Compares, Group, Lent, Tally};
use reference::precedence::{self, Crowd, FREE, HIGHEST, MOST_LABELS, MOST_NAMES, MOST_RULES};
use reference::processor::{resolve, written_out};
use reference::random::Rng;
use reference::rules;
use reference::side::{Inputs, Processed, Processor, Reference, Side};
use reference::sums::{STOP, Section};
use reference::tables::bytes;
use reference::texts::{self, Seed, Words};
use reference::walker::WALK_BYTES;

const SEEDS: u64 = 400;
/// Lent bytes for the largest table.
const LARGEST: usize = 2 * 4_096;
/// The longest text.
const MAX_TEXT: usize = 32_768;
/// Steps enough for any of the sums.
const BUDGET: u64 = 100_000;

struct Harness {
    processor: &'static dyn Processor,
    rows: &'static dyn Figures,
    walker: &'static dyn Side,
    exact: bool,
    tally: Tally,
}

impl Harness {
    /// Compares one call, the lent bytes being random; what this crate answers.
    fn check(&mut self, rng: &mut Rng, text: &[u8], size: usize) -> Processed {
        let read = Lent::new(rng, text, self.exact);
        let mut lent = Lent::random(rng, size, self.exact);
        let done = self.tally.both(
            [self.processor, &Reference],
            &[&read],
            &mut lent,
            |side, lent| side.process(read.bytes(), lent),
            || shown(text),
        );
        self.tally.met(format!("answer {}", done.number));
        if done.number == 0 {
            self.tally.met(format!("finishing {}", done.finishing));
        }
        done
    }

    /// Such a call with a buffer that is mostly large enough.
    fn check_any(&mut self, rng: &mut Rng, text: &[u8]) -> Processed {
        let size = if rng.once_in(6) { rng.below(300) } else { LARGEST + rng.below(9) };
        self.check(rng, text, size)
    }

    /// Such a call, which must be answered so.
    fn answers(&mut self, rng: &mut Rng, text: &[u8], number: u16, start: usize, len: usize) {
        let done = self.check_any(rng, text);
        let wanted = Processed { number, start: start as u64, len: len as u64, words: 0, finishing: 0 };
        self.tally.expect(done == wanted, || format!("  {done:?}, not {wanted:?}\n{}", shown(text)));
    }

    /// Compares the rows of a text's rules; their number, and how many they are.
    fn rules(&mut self, rng: &mut Rng, text: &[u8], size: usize) -> (u16, u64) {
        let read = Lent::new(rng, text, self.exact);
        let mut rows = Lent::random(rng, size, self.exact);
        let done = self.tally.both(
            [self.rows, &Reference],
            &[&read],
            &mut rows,
            |side, rows| side.rules(read.bytes(), rows),
            || shown(text),
        );
        self.tally.met(format!("rows {}", done.0));
        done
    }

    /// The other side's table of a text.
    fn table(&self, text: &[u8]) -> (Processed, Vec<u8>) {
        let mut table = vec![0xEE; LARGEST];
        let done = self.processor.process(text, &mut table);
        table.truncate(2 * done.words as usize);
        (done, table)
    }
}

/// A text, escaped so that it can be read, cut where it is long.
fn shown(text: &[u8]) -> String {
    format!("  text of {} bytes: \"{}\"", text.len(), text[..text.len().min(1_500)].escape_ascii())
}

fn has(words: &Words, word: &str) -> bool {
    words.iter().any(|other| other == word.as_bytes())
}

/// Good programs. The table and the verdict are those of the same text with the rules written out.
fn good(h: &mut Harness, rng: &mut Rng) {
    let mut seed = Seed::new(rng.draw());
    let size = 3 + seed.below(60);
    let words = precedence::good(&mut seed, size);
    let text = texts::join(&mut seed, &words);
    let done = h.check(rng, &text, LARGEST);
    h.tally.expect(done.number == 0, || format!("a good program is refused: {done:?}\n{}", shown(&text)));
    let (section, used) = (has(&words, "operators"), has(&words, "^"));
    h.tally.met(format!("section {section}, used {used}"));
    FREE.iter().filter(|name| has(&words, name)).for_each(|name| h.tally.met(format!("`{name}`")));
    let Some(written) = written_out(&text).filter(|text| text.len() <= MAX_TEXT) else { return };
    let (one, other) = (h.table(&text), h.table(&written));
    h.tally.expect(one == other, || format!("  {:?}\n  written out {:?}\n{}\n{}", one.0, other.0, shown(&text), shown(&written)));
}

/// Each fault planted, with the number and the part that it was planted with.
fn planted(h: &mut Harness, rng: &mut Rng) {
    let mut seed = Seed::new(rng.draw());
    for sort in 0..faults::SORTS {
        let Fault { number, text, start, len } = faults::plant(&mut seed, sort);
        h.answers(rng, &text, number, start, len);
        h.tally.met(format!("planted {number}"));
    }
}

/// Entries with the input token, the output token or both at fault, one of each sort in two seeds: the token is shown wherever it is at fault.
fn faulty_entries(h: &mut Harness, rng: &mut Rng) {
    let mut seed = Seed::new(rng.draw());
    let first = h.tally.seed() as usize % 2;
    for sort in entries::Sort::all().into_iter().skip(first).step_by(2) {
        let Fault { number, text, start, len } = entries::plant(&mut seed, &sort);
        h.answers(rng, &text, number, start, len);
        let [input, output] = sort.numbers();
        h.tally.met(format!("token {input} output {output}"));
        h.tally.met(sort);
    }
}

/// Several faults in one text: the one that comes first counts.
fn several(h: &mut Harness, rng: &mut Rng) {
    let text = faults::several(&mut Seed::new(rng.draw()));
    h.check_any(rng, &text);
}

/// Words changed, or bytes changed, here and there.
fn damaged(h: &mut Harness, rng: &mut Rng) {
    let mut seed = Seed::new(rng.draw());
    let size = 4 + seed.below(30);
    let text = precedence::text(&mut seed, size);
    h.check_any(rng, &text);
}

/// Entries and uses with faults in many words.
fn drawn(h: &mut Harness, rng: &mut Rng) {
    let text = precedence::drawn(&mut Seed::new(rng.draw()));
    let done = h.check_any(rng, &text);
    h.tally.met(format!("drawn {}", done.number));
}

/// Programs in which both kinds of levels are used, in few bytes.
const SMALL: [&str; 3] = [
    "operators E:p 1 left x 'q'15 right'y';input:p r 'q';output:x y 'y';rules M:{[|p:^E@M>|*:^E@N >>]}^E@M;N:r;end",
    "input:left right;output:left operators;operators left:right 3 right left left 2 left operators;rules operators:^left@operators;end",
    "input:p q r;output:x;type t:v;operators E:p 7 left x q 7 left x;operators F:r 1 right x;rules M:^E@N^F@N;N:?;C>>t:^E@M>>v;end",
];

/// Each byte of a small text in turn left out, put in twice, replaced, and the text ended before it.
fn each_byte(h: &mut Harness, rng: &mut Rng) {
    let text = rng.pick(&SMALL).as_bytes();
    for at in 0..text.len() {
        let byte = rng.pick(b"'%_$\n\0^^^+>:;|aZ019\xff=(),.#@?[]{}");
        for text in texts::damaged_at(text, at, byte, rng.below(8)) {
            h.check_any(rng, &text);
        }
    }
}

/// Rules, names and operators of a level below, at and past their limits, one or more at once.
fn limits(h: &mut Harness, rng: &mut Rng) {
    let Crowd { text, past, rules, names, labels } = precedence::crowd(&mut Seed::new(rng.draw()));
    for (name, amount, most) in [("rules", rules, MOST_RULES), ("names", names, MOST_NAMES), ("labels", labels, MOST_LABELS)] {
        let side = (amount as i64 - most as i64).clamp(-1, 1);
        h.tally.met(format!("{name} {side}"));
    }
    let passed = [rules > MOST_RULES, names > MOST_NAMES, labels > MOST_LABELS];
    h.tally.met(format!("{} limits passed", passed.into_iter().filter(|passed| *passed).count()));
    let Some(start) = past else {
        let done = h.check_any(rng, &text);
        h.tally.expect(matches!(done.number, 0 | 20), || format!("a good program is refused: {done:?}\n{}", shown(&text)));
        return;
    };
    h.answers(rng, &text, 9, start, 1);
    // 3 to 8 come before it, 20 behind it.
    let end = text.len() - 3;
    let worse = [&text[..end], b"Z: >; end"].concat();
    h.answers(rng, &worse, 7, end + 3, 1);
    let done = h.check(rng, &text, 2);
    h.tally.expect(done.number == 9, || format!("  {done:?} before 9\n{}", shown(&text)));
}

/// Every lent size around the table's own.
fn lent_sizes(h: &mut Harness, rng: &mut Rng) {
    let mut seed = Seed::new(rng.draw());
    let words = precedence::good(&mut seed, 12);
    let text = texts::join(&mut seed, &words);
    let own = 2 * h.check(rng, &text, LARGEST).words as usize;
    for size in (0..9).map(|i| (own + i).saturating_sub(4)).chain([0, 1, own / 2, LARGEST + 7]) {
        let done = h.check(rng, &text, size);
        let (number, start) = if size / 2 * 2 < own { (20, text.len() as u64) } else { (0, 0) };
        h.tally.expect((done.number, done.start, done.len) == (number, start, 0), || {
            format!("  {done:?} for {own} bytes in {size}")
        });
    }
}

/// The rows of the rules of a text, with those made for its operators.
fn rows(h: &mut Harness, rng: &mut Rng) {
    let mut seed = Seed::new(rng.draw());
    let text = precedence::text(&mut seed, 20);
    h.rules(rng, &text, ROW_BYTES * MOST_RULES);
    let words = precedence::good(&mut seed, 12);
    let text = texts::join(&mut seed, &words);
    let (number, rules) = h.rules(rng, &text, ROW_BYTES * MOST_RULES + 3);
    let right = ROW_BYTES * rules as usize;
    h.tally.expect(number == 0 && rules > 0, || format!("  {number} for a good program\n{}", shown(&text)));
    for size in [0, right - 1, right] {
        let (number, _) = h.rules(rng, &text, size);
        h.tally.expect(number == if size < right { SHORT } else { 0 }, || format!("  {number} for {size} of {right} bytes"));
    }
    let crowd = precedence::crowd(&mut seed);
    h.rules(rng, &crowd.text, ROW_BYTES * MOST_RULES);
}

/// Sums of all sorts come out in postfix order, and malformed ones as by the rules' own walk.
fn sums(h: &mut Harness, rng: &mut Rng) {
    let mut seed = Seed::new(rng.draw());
    let section = Section::new(&mut seed);
    let text = section.text(&mut seed).into_bytes();
    h.check(rng, &text, LARGEST);
    let (done, table) = h.table(&text);
    let Ok(program) = resolve(&text) else { return };
    h.tally.expect(done.number == 0 && done.finishing == 1, || format!("  {done:?}\n{}", shown(&text)));
    for side in section.operators.iter().map(|operator| (operator.level, operator.left)) {
        h.tally.met(format!("level {} {}", side.0, if side.1 { "left" } else { "right" }));
    }
    for _ in 0..6 {
        let depth = seed.below(9);
        let sum = section.sum(&mut seed, depth);
        let mut tokens = [&sum[..], &[STOP]].concat();
        let good = !seed.one_in(4);
        if !good {
            let at = seed.below(tokens.len());
            tokens[at] = seed.below(20) as u16;
        }
        let allowance = if good { 0 } else { seed.below(4) as u16 };
        let own = rules::walk(&program, &tokens, &[], allowance, BUDGET as usize);
        let mut walk = [0; WALK_BYTES];
        h.walker.fresh(&mut walk, allowance);
        let mut events = vec![0; 6 * own.events.len() + 6];
        let token_bytes = bytes(&tokens);
        let inputs = Inputs { table: &table, tokens: &token_bytes, answers: &[] };
        let call = h.walker.whole(inputs, BUDGET, &mut walk, &mut events);
        events.truncate(6 * call.written as usize);
        let mut agrees = Some(call.number) == own.reason && events == bytes(&own.events.concat());
        if good && call.number == 0 {
            let postfix: Vec<[u16; 3]> = section.postfix(&sum).into_iter().map(|token| [1, token, 0]).collect();
            agrees &= events == bytes(&postfix.concat());
        }
        h.tally.expect(agrees, || {
            format!("  {call:?}, rules {:?}, tokens {tokens:?}, events {events:?}\n{}", own.reason, shown(&text))
        });
        h.tally.met(format!("sum {}", call.number));
    }
}

impl Compares for Harness {
    type Source = Rng;

    const GROUPS: &'static [Group<Harness>] = &[
        ("good programs", good, 12),
        ("planted faults", planted, 1),
        ("several faults", several, 12),
        ("damaged texts", damaged, 60),
        ("entries and uses drawn word by word", drawn, 120),
        ("each byte damaged", each_byte, 1),
        ("limits", limits, 6),
        ("lent sizes", lent_sizes, 1),
        ("rows of rules", rows, 2),
        ("sums in postfix order", sums, 3),
        ("entries with a word at fault", faulty_entries, 1),
    ];

    fn tally(&mut self) -> &mut Tally {
        &mut self.tally
    }

    fn report(&mut self, least: u64) {
        self.tally.demand_numbers(least, "answer", &[0, 1, 2, 3, 4, 5, 6, 7, 8, 9, 20, 45]);
        self.tally.demand_numbers(least, "rows", &[0, 2, 9, 20, 45]);
        self.tally.demand(least, ["finishing 0", "finishing 1"]);
        self.tally.demand(least, ["section false, used false", "section true, used false", "section true, used true"]);
        self.tally.demand(least, FREE.map(|name| format!("`{name}`")));
        self.tally.demand_numbers(least, "drawn", &[0, 2, 3, 4, 5, 9, 45]);
        self.tally.demand_numbers(least, "planted", &[2, 3, 4, 5, 6, 7, 8, 9, 45]);
        let sides = ["rules", "names", "labels"].iter().flat_map(|name| [-1, 0, 1].map(|side| format!("{name} {side}")));
        self.tally.demand(least, sides);
        self.tally.demand(least, [0, 1, 2, 3].map(|limits| format!("{limits} limits passed")));
        let levels = (1..=HIGHEST).flat_map(|level| ["left", "right"].map(|side| format!("level {level} {side}")));
        self.tally.demand(least, levels);
        self.tally.demand_numbers(least, "sum", &[0, 30, 33]);
        self.report_entries(least);
    }
}

/// How many times as often as other things each sort of entry is to be met: in every other seed.
const OFTEN: u64 = 15;

impl Harness {
    /// What the entries with a word at fault are to have met: each sort of them often.
    fn report_entries(&mut self, least: u64) {
        let both = [[3, 3], [3, 5], [5, 3], [5, 5]];
        let one = [[3, 0], [5, 0], [0, 3], [0, 5]];
        self.tally
            .demand(OFTEN * least, [both, one].concat().iter().map(|[token, output]| format!("token {token} output {output}")));
        let sorts = entries::Sort::all();
        let fewest = sorts.iter().map(|sort| self.tally.times(&sort.to_string())).min().unwrap_or(0);
        println!("met: each of {} sorts of entries with a word at fault {fewest} times or more", sorts.len());
        for sort in sorts {
            let times = self.tally.times(&sort.to_string());
            self.tally.expect(times >= OFTEN * least, || format!("met {times} times, not {}: {sort}", OFTEN * least));
        }
    }
}

fn main() -> ExitCode {
    harness::main("compare_operators", SEEDS, |exact| {
        let h = Harness {
            processor: ffi::processor().unwrap_or(&Reference),
            rows: ffi::figures().unwrap_or(&Reference),
            walker: ffi::library().unwrap_or(&ffi::Plain),
            exact,
            tally: Tally::default(),
        };
        println!("rust against {}, walks of {}", h.processor.name(), h.walker.name());
        h
    })
}
