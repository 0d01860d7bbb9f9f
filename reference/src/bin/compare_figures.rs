//! Compares the library's figures over a shelf of books with those of this crate, book by book and rule by rule, and their sums with
//! the rules' places.
//!
//! compare_figures [--exact] [--trace] [seeds [first seed]]
//!
//! Built without the library, this crate stands on both sides, and the plain C walker makes the calls alone.
#![forbid(unsafe_code)]

use std::collections::BTreeSet;
use std::process::ExitCode;

use reference::crowded;
use reference::faults;
use reference::ffi;
use reference::figures::{self, FIGURES_BYTES, Figures, PASSES, ROW_BYTES, SHORT, Shelf, Sums, visits};
use reference::files::words;
use reference::harness::{self, Compares, Group, Lent, Tally};
use reference::limits;
use reference::precedence;
use reference::processor::{MAX_TABLE, places};
use reference::programs;
use reference::random::{self, Rng};
use reference::side::{Inputs, Processor, REFUSAL, Reference, Side};
use reference::tables::bytes;
use reference::texts::{self, Seed};
use reference::walker::{Done, REFUSED, WALK_BYTES};

const SEEDS: u64 = 900;
/// A book that does not end in so many steps is given no more of them.
const BOUND: u64 = 600;
/// The bytes of a buffer that a book of so many steps does not fill.
const ROOMY: usize = 6 * BOUND as usize + 6;
/// The locations where words of coverage begin and end, and others.
const LOCATIONS: [u16; 12] = [1, 2, 3, 5, 63, 64, 65, 128, 129, 4_032, 4_033, 4_096];

/// A book to be added, but for the figures.
#[derive(Clone, Copy)]
struct Book<'a> {
    inputs: Inputs<'a>,
    budget: u64,
    allowance: u16,
    /// The bytes of the event buffer.
    size: usize,
}

impl Book<'_> {
    fn add(&self, side: &dyn Figures, figures: &mut [u8], events: &mut [u8]) -> Done {
        side.add_book(self.inputs, self.budget, self.allowance, figures, events)
    }

    /// What it would answer, and the locations that it visits.
    fn visits(&self) -> (Done, Vec<u16>) {
        visits(self.inputs, self.budget, self.allowance, &mut vec![0; self.size])
    }
}

struct Harness {
    other: &'static dyn Figures,
    walker: &'static dyn Side,
    processor: &'static dyn Processor,
    exact: bool,
    tally: Tally,
}

impl Harness {
    /// Compares one book; the figures become what this crate leaves.
    fn add(&mut self, rng: &mut Rng, book: &Book, figures: &mut [u8]) -> Done {
        let mut lent = Lent::new(rng, figures, self.exact);
        let mut events = Lent::random(rng, book.size, self.exact);
        let mut mine = events.before().to_vec();
        let done = book.add(&Reference, figures, &mut mine);
        let Inputs { table, tokens, answers } = book.inputs;
        let read = [table, tokens, answers].map(|bytes| Lent::new(rng, bytes, self.exact));
        let [table, tokens, answers] = read.each_ref().map(Lent::bytes);
        let theirs =
            Book { inputs: Inputs { table, tokens, answers }, ..*book }.add(self.other, lent.bytes_mut(), events.bytes_mut());
        let same = done == theirs && lent.is(figures) && events.is(&mine) && read.iter().all(Lent::kept);
        self.tally.expect(same, || {
            let differ = |what, same| if same { String::new() } else { format!("; the {what} differ") };
            let bytes = differ("figures", lent.is(figures)) + &differ("event buffers", events.is(&mine));
            let before = counted(lent.before());
            format!("{}{before}  rust:  {done:?}\n  other: {theirs:?}{bytes}\n{}", shown(book), counted(lent.bytes()))
        });
        self.alone(book, events.before(), &mine, done);
        self.tally.met(format!("add {}", done.number));
        done
    }

    /// A book that is added answers and writes as the whole call from a fresh walk; one that is not changes nothing.
    fn alone(&mut self, book: &Book, before: &[u8], after: &[u8], done: Done) {
        let mut events = before.to_vec();
        let mut alone = Done { number: done.number, ..REFUSAL };
        if ![REFUSED, PASSES].contains(&done.number) {
            let mut walk = [0; WALK_BYTES];
            self.walker.fresh(&mut walk, book.allowance);
            alone = self.walker.whole(book.inputs, book.budget, &mut walk, &mut events);
        }
        let same = done == alone && after == events;
        self.tally.expect(same, || format!("{}  added: {done:?}\n  alone: {alone:?}", shown(book)));
    }

    /// Compares what is said of a shelf.
    fn shelf(&mut self, rng: &mut Rng, figures: &[u8]) -> Shelf {
        let lent = Lent::new(rng, figures, self.exact);
        let shelf = Reference.shelf(figures);
        let theirs = self.other.shelf(lent.bytes());
        self.tally
            .expect(shelf == theirs && lent.kept(), || format!("{}  rust:  {shelf:?}\n  other: {theirs:?}", counted(figures)));
        self.tally.met(format!("shelf {}", shelf.number));
        shelf
    }

    /// Compares the rows of a text's rules; the number, and the rows.
    fn rules(&mut self, rng: &mut Rng, text: &[u8], size: usize) -> (u16, Vec<[u64; 3]>) {
        let read = Lent::new(rng, text, self.exact);
        let mut rows = Lent::random(rng, size, self.exact);
        let given = || format!("  text \"{}\"", cut(text));
        let done =
            self.tally.both([self.other, &Reference], &[&read], &mut rows, |side, rows| side.rules(read.bytes(), rows), given);
        self.tally.met(format!("rules {}", done.0));
        let number = |bytes: &[u8]| bytes.iter().fold(0, |sum, byte| sum << 8 | u64::from(*byte));
        let row = |row: &[u8; ROW_BYTES]| [&row[..8], &row[8..16], &row[16..]].map(number);
        (done.0, rows.bytes().as_chunks().0.iter().take(done.1 as usize).map(row).collect())
    }

    /// Compares the sum of one rule's words.
    fn rule_total(&mut self, rng: &mut Rng, figures: &[u8], (from, to): (u64, u64)) -> (u16, u64) {
        let read = Lent::new(rng, figures, self.exact);
        let done = Reference.rule_total(figures, from, to);
        let theirs = self.other.rule_total(read.bytes(), from, to);
        self.tally.expect(done == theirs && read.kept(), || {
            format!("{}  from {from} to {to}\n  rust:  {done:?}\n  other: {theirs:?}", counted(figures))
        });
        self.tally.met(format!("rule total {}", done.0));
        done
    }

    /// Compares the sum over all rules.
    fn rules_total(&mut self, rng: &mut Rng, figures: &[u8], rows: &[u8], end: u64) -> (u16, u64) {
        let read = [figures, rows].map(|bytes| Lent::new(rng, bytes, self.exact));
        let done = Reference.rules_total(figures, rows, end);
        let theirs = self.other.rules_total(read[0].bytes(), read[1].bytes(), end);
        self.tally.expect(done == theirs && read.iter().all(Lent::kept), || {
            let locations: Vec<u64> = rows.as_chunks::<ROW_BYTES>().0.iter().map(|row| get(row, 2)).collect();
            let shown = format!("  rows of {} bytes, at {locations:?}, end {end}\n", rows.len());
            format!("{}{shown}  rust:  {done:?}\n  other: {theirs:?}", counted(figures))
        });
        self.tally.met(format!("rules total {}", done.0));
        done
    }
}

/// What a book was handed.
fn shown(book: &Book) -> String {
    let Book { inputs, budget, allowance, size } = book;
    let list = |name: &str, bytes: &[u8]| format!("  {name} of {} bytes: {:?}\n", bytes.len(), words(bytes));
    let lists = [("table", inputs.table), ("tokens", inputs.tokens), ("answers", inputs.answers)];
    let lists: String = lists.iter().map(|(name, bytes)| list(name, bytes)).collect();
    format!("  budget {budget}, allowance {allowance}, event buffer of {size} bytes\n{lists}")
}

/// The numbers of figures that are not 0, with their places.
fn counted(bytes: &[u8]) -> String {
    let numbers = bytes.as_chunks::<8>().0.iter().map(|number| u64::from_be_bytes(*number)).enumerate();
    let some: Vec<(usize, u64)> = numbers.filter(|(_, number)| *number > 0).take(60).collect();
    format!("  figures of {} bytes, from 0: {some:?}\n", bytes.len())
}

/// A text, escaped so that it can be read, cut where it is long.
fn cut(text: &[u8]) -> String {
    text[..text.len().min(1_500)].escape_ascii().to_string()
}

/// A number of figures.
fn get(figures: &[u8], index: usize) -> u64 {
    figures[8 * index..][..8].iter().fold(0, |sum, byte| sum << 8 | u64::from(*byte))
}

fn put(figures: &mut [u8], index: usize, number: u64) {
    figures[8 * index..][..8].copy_from_slice(&number.to_be_bytes());
}

/// Words as bytes, now and then with an odd last one.
fn odd(rng: &mut Rng, words: &[u16]) -> Vec<u8> {
    let mut bytes = bytes(words);
    if rng.once_in(3) {
        bytes.push(rng.pick(&[0, 1, 9, 255]));
    }
    bytes
}

/// A table of any sort.
fn any_table(rng: &mut Rng) -> Vec<u8> {
    let table = match rng.below(10) {
        0..=3 => random::structured(rng, 40),
        4 | 5 => random::damaged(rng, 40),
        6 | 7 => random::foreign(rng, 60),
        8 => crowded::shared(rng, 40),
        _ => {
            // To the last location, and past it.
            let mut table = vec![256; rng.within(4_094, 4_098)];
            table[..2].copy_from_slice(&[1, rng.within(4_085, 4_093) as u16]);
            *table.last_mut().expect("a word") = 9;
            table
        }
    };
    odd(rng, &table)
}

/// Tokens and answers that lead on in a table.
fn feed(rng: &mut Rng, table: &[u8]) -> (Vec<u8>, Vec<u8>) {
    let (tokens, answers) = random::lead(rng, table);
    (odd(rng, &tokens), odd(rng, &answers))
}

/// A book whose budget and event buffer are cut anywhere, or large.
fn cut_book<'a>(rng: &mut Rng, inputs: Inputs<'a>) -> Book<'a> {
    let allowance = rng.pick(&[0, 0, 0, 1, 2, 30, 65_535]);
    let roomy = Book { inputs, budget: BOUND, allowance, size: ROOMY };
    let (done, _) = roomy.visits();
    let budget = match rng.below(4) {
        0 | 1 => rng.below(done.steps as usize + 3) as u64,
        2 if done.number != 36 => rng.pick(&[1 << 32, 1 << 63, u64::MAX - 1, u64::MAX]),
        _ => BOUND,
    };
    let size = if rng.once_in(2) { rng.below(6 * done.written as usize + 8) } else { ROOMY };
    Book { budget, size, ..roomy }
}

/// Shelves from empty figures: the sums of all books, made from the list of them, in the end.
fn shelves(h: &mut Harness, rng: &mut Rng) {
    let table = any_table(rng);
    let mut figures = vec![0; FIGURES_BYTES];
    let mut all = Vec::new();
    for _ in 0..rng.below(6) {
        let (tokens, answers) = feed(rng, &table);
        let book = cut_book(rng, Inputs { table: &table, tokens: &tokens, answers: &answers });
        let (done, visited) = book.visits();
        let added = h.add(rng, &book, &mut figures);
        h.tally.expect(added == done, || format!("{}  {added:?}, not {done:?}", shown(&book)));
        if visited.contains(&4_096) {
            h.tally.met("location 4096");
        }
        all.push(visited);
    }
    h.tally.expect(figures == Sums::of(&all).encode(), || format!("  sums of {} books: {}", all.len(), counted(&figures)));
    let shelf = h.shelf(rng, &figures);
    let locations = all.concat();
    let (books, total) = (all.len() as u64, locations.len() as u64);
    let covered = locations.iter().collect::<BTreeSet<_>>().len() as u64;
    let (mean, rest) = if books == 0 { (0, 0) } else { (total / books, total % books) };
    let wanted = Shelf { number: 0, books, total, covered, mean, rest };
    h.tally.expect(shelf == wanted, || format!("  {shelf:?}, not {wanted:?}"));
    h.tally.met(format!("books {books}"));
    if books > 0 && rest > 0 {
        h.tally.met("a remainder");
    }
}

/// Figures whose parts fit: of a few locations, with any books; now and then with as many books as there can be.
fn made_up(rng: &mut Rng) -> Vec<u8> {
    let mut counts: Vec<(u16, u64)> = Vec::new();
    for _ in 0..rng.below(8) {
        let location = if rng.once_in(2) { rng.pick(&LOCATIONS) } else { rng.within(1, MAX_TABLE) as u16 };
        let bits = rng.within(4, 64);
        if counts.iter().all(|(other, _)| *other != location) {
            counts.push((location, rng.draw() >> bits.min(63)));
        }
    }
    let books = rng.pick(&[1, 2, 3, 1 << 32, u64::MAX - 1, u64::MAX]);
    Sums::made_up(&counts, books).encode()
}

/// The ways to damage figures; all but the last ones make parts that do not fit.
const DAMAGES: [&str; 11] = [
    "bit",
    "count",
    "count gone",
    "count moved",
    "no book",
    "total by one",
    "total bit",
    "sum past 64 bits",
    "no counts",
    "books",
    "any byte",
];

/// Damages figures so; whether there was something to damage.
fn damage(rng: &mut Rng, figures: &mut [u8], sort: usize) -> bool {
    let total = get(figures, figures::TOTAL);
    let counts: Vec<usize> = (0..MAX_TABLE).filter(|index| get(figures, *index) > 0).collect();
    let at = if rng.once_in(2) || counts.is_empty() { rng.below(MAX_TABLE) } else { rng.pick(&counts) };
    let one = if rng.once_in(2) { 1 } else { u64::MAX };
    match DAMAGES[sort] {
        "bit" => {
            let word = figures::COVERAGE + at / 64;
            let bits = get(figures, word) ^ 1 << (at % 64);
            put(figures, word, bits);
        }
        "count" => put(figures, at, get(figures, at).wrapping_add(one)),
        "count gone" if get(figures, at) > 0 => put(figures, at, 0),
        "count moved" if get(figures, at) > 0 => {
            let to = (at + rng.within(1, MAX_TABLE - 1)) % MAX_TABLE;
            let sum = get(figures, at) + get(figures, to);
            put(figures, to, sum);
            put(figures, at, 0);
        }
        "no book" if total > 0 => put(figures, figures::BOOKS, 0),
        "total by one" => put(figures, figures::TOTAL, total.wrapping_add(one)),
        "total bit" => put(figures, figures::TOTAL, total ^ 1 << rng.below(64)),
        "sum past 64 bits" if counts.len() > 1 => {
            // Twice 2^63: the sum is the same but for a carry.
            for index in [counts[0], counts[counts.len() - 1]] {
                put(figures, index, get(figures, index) ^ 1 << 63);
            }
        }
        "no counts" if total > 0 => figures[..8 * figures::BOOKS].fill(0),
        "books" => put(figures, figures::BOOKS, rng.draw() | 1),
        "any byte" => figures[rng.below(FIGURES_BYTES)] ^= 1 << rng.below(8),
        _ => return false,
    }
    true
}

/// Figures whose parts do not fit together: 21, also where 46 would come.
fn damaged(h: &mut Harness, rng: &mut Rng) {
    let table = any_table(rng);
    let (tokens, answers) = feed(rng, &table);
    let book = cut_book(rng, Inputs { table: &table, tokens: &tokens, answers: &answers });
    let good = made_up(rng);
    let shelf = h.shelf(rng, &good);
    h.tally.expect(shelf.number == 0, || format!("  {shelf:?}\n{}", counted(&good)));
    let passes =
        Reference.add_book(book.inputs, book.budget, book.allowance, &mut good.clone(), &mut vec![0; book.size]).number == PASSES;
    for (sort, name) in DAMAGES.iter().enumerate() {
        let mut figures = good.clone();
        if !damage(rng, &mut figures, sort) {
            continue;
        }
        let shelf = h.shelf(rng, &figures);
        let totals = any_totals(h, rng, &figures);
        let done = h.add(rng, &book, &mut figures);
        if !["books", "any byte"].contains(name) {
            h.tally.expect(shelf.number == REFUSED && done == REFUSAL, || format!("  {name}: {done:?}, {shelf:?}"));
            h.tally.expect(totals == [(REFUSED, 0); 2], || format!("  {name}: rule by rule {totals:?}"));
            h.tally.met(format!("damaged: {name}"));
            if passes {
                h.tally.met("21 before 46");
            }
        }
    }
}

/// Figures so near 2^64 that the book just fits, or just not.
fn edges(h: &mut Harness, rng: &mut Rng) {
    let table = any_table(rng);
    let (tokens, answers) = feed(rng, &table);
    let book = cut_book(rng, Inputs { table: &table, tokens: &tokens, answers: &answers });
    let (alone, visited) = book.visits();
    let most = u64::MAX - alone.steps;
    for total in [most.saturating_sub(1), most, most.saturating_add(1), most.saturating_add(2), u64::MAX, rng.draw() >> 8] {
        let books = rng.pick(&[1, 2, 1_000, u64::MAX - 2, u64::MAX - 1, u64::MAX]);
        // In one location that the book visits, or in several.
        let one = if visited.is_empty() || rng.once_in(4) { rng.pick(&LOCATIONS) } else { rng.pick(&visited) };
        let part = if rng.once_in(2) { 0 } else { rng.draw().min(total) };
        let other = if one == 77 { 78 } else { 77 };
        let mut figures = Sums::made_up(&[(one, total - part), (other, part)], books).encode();
        let before = figures.clone();
        let (by_total, by_books) = (total > most, books == u64::MAX);
        let done = h.add(rng, &book, &mut figures);
        let wanted = if by_total || by_books { Done { number: PASSES, ..REFUSAL } } else { alone };
        h.tally.expect(done == wanted, || format!("{}  {done:?}, not {wanted:?}\n{}", shown(&book), counted(&before)));
        h.tally.expect((figures == before) == (done.number == PASSES), || format!("  {done:?} changed {}", counted(&before)));
        h.tally.met(format!("past by total {by_total}, by books {by_books}"));
        if total == most && !by_books && alone.steps > 0 {
            h.tally.met("just fits");
        }
        if done.number == PASSES {
            h.tally.met(format!("46 before {}", alone.number));
        } else if books == u64::MAX - 1 {
            h.tally.met("the last book");
        }
        h.shelf(rng, &figures);
    }
}

/// Figures of other lengths.
fn lengths(h: &mut Harness, rng: &mut Rng) {
    let table = any_table(rng);
    let (tokens, answers) = feed(rng, &table);
    let book = cut_book(rng, Inputs { table: &table, tokens: &tokens, answers: &answers });
    let near: Vec<usize> = (FIGURES_BYTES - 9..=FIGURES_BYTES + 9).collect();
    let near = rng.pick(&near);
    for size in [near, rng.pick(&[0, 1, 8, 16, 32_768, 33_280, 33_288, 33_304, 2 * FIGURES_BYTES])] {
        let mut figures = made_up(rng);
        figures.resize(size, 0);
        let shelf = h.shelf(rng, &figures);
        let totals = any_totals(h, rng, &figures);
        let done = h.add(rng, &book, &mut figures);
        let right = size == FIGURES_BYTES;
        h.tally
            .expect(totals.iter().all(|(number, _)| (*number != REFUSED) == right), || format!("  {totals:?} for {size} bytes"));
        h.tally
            .expect((shelf.number == 0) == right && (done.number != REFUSED) == right, || format!("  {done:?} for {size} bytes"));
        h.tally.met(format!("length {right}"));
    }
}

/// A text that is accepted.
fn good(rng: &mut Rng) -> Vec<u8> {
    let mut seed = Seed::new(rng.draw());
    match rng.below(8) {
        0 => programs::CHOICES.into(),
        1 => {
            let bytes = seed.within(1_024, 4_000);
            programs::typical(&mut seed, bytes).text
        }
        2 | 3 => {
            let size = 3 + seed.below(40);
            let words = precedence::good(&mut seed, size);
            texts::join(&mut seed, &words)
        }
        _ => {
            let size = 6 + seed.below(80);
            let words = texts::good(&mut seed, size);
            texts::join(&mut seed, &words)
        }
    }
}

/// Shelves over the table of an accepted program, taken rule by rule too: the same grand total.
fn by_rule(h: &mut Harness, rng: &mut Rng) {
    let text = good(rng);
    let mut table = vec![0; 2 * MAX_TABLE];
    let done = h.processor.process(&text, &mut table);
    let words = done.words as usize;
    h.tally.expect(done.number == 0, || format!("  {done:?} for \"{}\"", cut(&text)));
    // The table alone, with zeros behind it, or with anything.
    match rng.below(3) {
        0 => table.truncate(2 * words),
        1 => {}
        _ => table[2 * words..].fill_with(|| rng.below(12) as u8),
    }
    let (mut figures, mut all) = (vec![0; FIGURES_BYTES], Vec::new());
    for _ in 0..rng.within(1, 4) {
        let (tokens, answers) = feed(rng, &table);
        let book = cut_book(rng, Inputs { table: &table, tokens: &tokens, answers: &answers });
        h.add(rng, &book, &mut figures);
        all.push(book.visits().1);
    }
    let size = ROW_BYTES * 128 + rng.below(9);
    let (number, rows) = h.rules(rng, &text, size);
    h.tally.expect(number == 0, || format!("  the rules of an accepted text: {number}"));
    let shelf = h.shelf(rng, &figures);
    let total = sums_by_rule(h, rng, &text, &figures, &rows, &all.concat());
    let same = total == shelf.total && total == all.concat().len() as u64;
    h.tally.expect(same, || format!("  rule by rule {total}, book by book {shelf:?}\n  \"{}\"", cut(&text)));
    let together = h.rules_total(rng, &figures, &row_bytes(&rows), words as u64 + 1);
    h.tally.expect(together == (0, shelf.total), || format!("  rules together {together:?}, {shelf:?}\n  \"{}\"", cut(&text)));
    h.tally.met(format!("rules of a program: {}", rows.len().min(4)));
    let made = rows.iter().any(|row| text[row[0] as usize] == b'^');
    if total > 0 {
        h.tally.met(format!("sums by rule, made for operators {made}"));
    }
}

/// The sum of each rule of a text by itself, which must be that of the locations that were visited; all of them together.
fn sums_by_rule(h: &mut Harness, rng: &mut Rng, text: &[u8], figures: &[u8], rows: &[[u64; 3]], visited: &[u16]) -> u64 {
    let words = h.processor.process(text, &mut vec![0; 2 * MAX_TABLE]).words;
    let ends = rows.iter().skip(1).map(|row| row[2]).chain([words + 1]);
    let mut total = 0;
    for ((row, end), place) in rows.iter().zip(ends).zip(places(text).unwrap_or_default()) {
        let done = h.rule_total(rng, figures, (row[2], end));
        let own = visited.iter().filter(|location| (place.location as u64..end).contains(&u64::from(**location))).count() as u64;
        h.tally
            .expect(done == (0, own), || format!("  the rule at {}: {done:?}, not {own}\n  \"{}\"", place.location, cut(text)));
        total += done.1;
    }
    total
}

fn row_bytes(rows: &[[u64; 3]]) -> Vec<u8> {
    rows.iter().flatten().flat_map(|number| number.to_be_bytes()).collect()
}

/// Rows with these locations; what else stands in them may be anything.
fn rows_at(rng: &mut Rng, locations: &[u64]) -> Vec<u8> {
    let rows: Vec<[u64; 3]> = locations.iter().map(|location| [rng.draw(), rng.draw(), *location]).collect();
    row_bytes(&rows)
}

/// Where a rule may begin or end: in the table, at its ends, and where no table goes, also where only the low bits would be a
/// location.
const FAR: [u64; 12] = [
    0,
    4_095,
    4_097,
    4_098,
    1 << 13,
    (1 << 16) + 2,
    (1 << 32) + 2,
    (1 << 63) - 1,
    1 << 63,
    (1 << 63) + 2,
    u64::MAX - 1,
    u64::MAX,
];

fn any_location(rng: &mut Rng) -> u64 {
    match rng.below(4) {
        0 => rng.pick(&FAR),
        1 => u64::from(rng.pick(&LOCATIONS)),
        _ => rng.below(MAX_TABLE + 40) as u64,
    }
}

/// The locations with a count.
fn counts(figures: &[u8]) -> Vec<(u64, u64)> {
    (0..MAX_TABLE).map(|index| (index as u64 + 1, get(figures, index))).filter(|(_, count)| *count > 0).collect()
}

/// The counts from one location on, up to another and without it.
fn between(counts: &[(u64, u64)], from: u64, to: u64) -> u128 {
    counts.iter().filter(|(location, _)| from <= *location && *location < to).map(|(_, count)| u128::from(*count)).sum()
}

/// A rule and rows of any sort, asked of any figures.
fn any_totals(h: &mut Harness, rng: &mut Rng, figures: &[u8]) -> [(u16, u64); 2] {
    let ends = (any_location(rng), any_location(rng));
    let sort = rng.below(ROWS.len());
    let locations = any_rows(rng, sort);
    let rows = rows_at(rng, &locations);
    [h.rule_total(rng, figures, ends), h.rules_total(rng, figures, &rows, ends.1)]
}

/// The first location behind all.
const BEHIND: u64 = MAX_TABLE as u64 + 1;
/// Names of where a rule begins and ends.
const ENDS: [(&str, fn(u64, u64) -> bool); 10] = [
    ("from 0", |from, to| from == 0 && to > 1),
    ("to 0", |from, to| from > 0 && to == 0),
    ("from is to", |from, to| from == to),
    ("from behind to", |from, to| from > to),
    ("to past the last", |from, to| from < BEHIND && to > BEHIND),
    ("from past the last", |from, to| from >= BEHIND && to > from),
    ("from past 2^63", |from, to| from >> 63 == 1 && to >= 1),
    ("to past 2^63", |from, to| from < BEHIND && to >> 63 == 1),
    ("from 2^64 - 1", |from, _| from == u64::MAX),
    ("to 2^64 - 1", |from, to| from < BEHIND && to == u64::MAX),
];

/// One rule with any ends.
fn any_rule(h: &mut Harness, rng: &mut Rng) {
    let figures = made_up(rng);
    let counts = counts(&figures);
    for _ in 0..4 {
        let (from, to) = (any_location(rng), any_location(rng));
        let wanted = between(&counts, from, to);
        let done = h.rule_total(rng, &figures, (from, to));
        h.tally.expect((done.0, u128::from(done.1)) == (0, wanted), || format!("  {done:?}, not {wanted}, from {from} to {to}"));
        for (name, is) in ENDS {
            if is(from, to) {
                h.tally.met(format!("rule {name}"));
            }
        }
        if done.1 > 0 {
            h.tally.met("rule with a sum");
        }
    }
}

/// The sorts of rows: as a program has them, the last one first, each twice, all of them several times over, and any.
const ROWS: [&str; 5] = ["in order", "backwards", "repeated", "over again", "any"];

fn any_rows(rng: &mut Rng, sort: usize) -> Vec<u64> {
    let mut locations: Vec<u64> = (0..rng.below(9)).map(|_| any_location(rng)).collect();
    match ROWS[sort] {
        "in order" => locations.sort_unstable(),
        "backwards" => locations.sort_unstable_by(|a, b| b.cmp(a)),
        "repeated" => locations = locations.iter().flat_map(|location| [*location; 2]).collect(),
        "over again" => {
            locations.sort_unstable();
            locations = locations.repeat(rng.within(2, 30));
        }
        _ => {}
    }
    locations
}

/// Rows of all sorts, whole and cut at any byte.
fn any_rules(h: &mut Harness, rng: &mut Rng) {
    let figures = made_up(rng);
    let counts = counts(&figures);
    for (sort, name) in ROWS.iter().enumerate() {
        let locations = any_rows(rng, sort);
        let (rows, end) = (rows_at(rng, &locations), any_location(rng));
        // At every byte now and then.
        let first = if rng.once_in(20) { rows.len().saturating_sub(3 * ROW_BYTES) } else { rows.len() };
        for len in (first..=rows.len()).chain([rng.below(rows.len() + 1)]) {
            let whole = &locations[..len / ROW_BYTES];
            let ends = whole.iter().skip(1).copied().chain([end]);
            let wanted: u128 = whole.iter().zip(ends).map(|(from, to)| between(&counts, *from, to)).sum();
            let wanted = u64::try_from(wanted).map_or((PASSES, 0), |wanted| (0, wanted));
            let done = h.rules_total(rng, &figures, &rows[..len], end);
            h.tally.expect(done == wanted, || format!("  {done:?}, not {wanted:?}, rows at {whole:?} to {end} in {len} bytes"));
            if !len.is_multiple_of(ROW_BYTES) {
                h.tally.met(format!("part of a row: {} bytes", len % ROW_BYTES));
            }
            if done.1 > 0 {
                h.tally.met(format!("rows {name}, {} rules with a sum", if whole.len() > 1 { "more" } else { "one" }));
            }
        }
        h.tally.met(format!("rows {name}"));
        if locations.is_empty() {
            h.tally.met("rows of no bytes");
        }
    }
}

/// Rows that count a location several times, so that the sum just fits 64 bits or just not.
fn edges_by_rule(h: &mut Harness, rng: &mut Rng) {
    let times = rng.within(2, 6);
    // With two locations, of which the other makes the sum up to what it is to be.
    let count = 2 + (rng.draw() >> rng.below(60)) % (u64::MAX / times as u64 - 2);
    let (one, other) = (rng.within(1, 2_000) as u16, rng.within(2_001, MAX_TABLE) as u16);
    let mut visits = vec![one; times];
    visits.insert(rng.below(times + 1), other);
    let locations: Vec<u64> = visits.iter().flat_map(|location| [u64::from(*location), u64::from(*location) + 1]).collect();
    let (rows, end) = (rows_at(rng, &locations), locations[locations.len() - 1]);
    for more in -2..=2 {
        let rest = (u64::MAX - times as u64 * count).wrapping_add_signed(more);
        let mut figures = Sums::made_up(&[(one, count), (other, rest)], rng.draw() | 1).encode();
        let wanted = if more > 0 { (PASSES, 0) } else { (0, u64::MAX.wrapping_add_signed(more)) };
        let done = h.rules_total(rng, &figures, &rows, end);
        h.tally.expect(done == wanted, || format!("  {done:?}, not {wanted:?}: {times} times {count} and {rest}"));
        h.tally.met(format!("sum of rules {more:+}"));
        // 21 comes before it.
        let total = get(&figures, figures::TOTAL);
        put(&mut figures, figures::TOTAL, total ^ 1 << rng.below(64));
        let done = h.rules_total(rng, &figures, &rows, end);
        h.tally.expect(done == (REFUSED, 0), || format!("  {done:?} for damaged figures"));
        if more > 0 {
            h.tally.met("21 before 46 by rule");
        }
    }
}

/// The rows of a text with buffers around the right size; a refused text has the processor's number.
fn rows(h: &mut Harness, rng: &mut Rng, text: &[u8]) {
    let mut table = vec![0; 2 * MAX_TABLE];
    let done = h.processor.process(text, &mut table);
    let size = rng.pick(&[0, 7, 23, 24, 25, 48, ROW_BYTES * 128, ROW_BYTES * 128 + 5]);
    let (number, found) = h.rules(rng, text, size);
    if done.number != 0 {
        h.tally.expect(number == done.number, || format!("  {number}, not {done:?}\n  \"{}\"", cut(text)));
        if number == SHORT {
            h.tally.met("20 by the table");
        }
        return;
    }
    h.tally.expect([0, SHORT].contains(&number), || format!("  {number}, not {done:?}\n  \"{}\"", cut(text)));
    let (_, all) = h.rules(rng, text, ROW_BYTES * 129);
    h.tally.expect(number != 0 || found == all, || format!("  {found:?} and {all:?}"));
    let right = ROW_BYTES * all.len();
    for size in [right - 1, right, right + 1] {
        let (number, _) = h.rules(rng, text, size);
        h.tally.expect((number == 0) == (size >= right), || format!("  {number} for {size} of {right} bytes"));
    }
    h.tally.met(format!("{} rules", all.len()));
}

/// The rows of texts of all sorts, accepted and refused.
fn texts_of_all_sorts(h: &mut Harness, rng: &mut Rng) {
    let mut seed = Seed::new(rng.draw());
    for _ in 0..4 {
        let size = 4 + seed.below(40);
        let text = texts::text(&mut seed, size);
        rows(h, rng, &text);
        let sort = seed.below(faults::SORTS);
        let text = faults::plant(&mut seed, sort).text;
        rows(h, rng, &text);
    }
    let text = good(rng);
    rows(h, rng, &text);
    if rng.once_in(8) {
        // As often as all others: the limits of the table's words and of the rules.
        let limit = if seed.one_in(2) { 2 + seed.below(2) } else { seed.below(limits::LIMITS.len()) };
        limits::samples(&mut seed, limit).iter().for_each(|sample| rows(h, rng, &sample.text));
    }
    if rng.once_in(40) {
        limits::beyond().iter().for_each(|(text, _)| rows(h, rng, text));
    }
}

impl Compares for Harness {
    type Source = Rng;

    const GROUPS: &'static [Group<Harness>] = &[
        ("shelves", shelves, 12),
        ("figures whose parts do not fit", damaged, 3),
        ("near 2^64", edges, 6),
        ("other lengths", lengths, 4),
        ("rule by rule", by_rule, 6),
        ("rows of rules", texts_of_all_sorts, 2),
        ("a rule with any ends", any_rule, 6),
        ("rules with any rows", any_rules, 2),
        ("near 2^64 by rules", edges_by_rule, 4),
    ];

    fn tally(&mut self) -> &mut Tally {
        &mut self.tally
    }

    fn report(&mut self, least: u64) {
        self.tally.demand_numbers(least, "add", &[0, 21, 30, 31, 32, 33, 34, 35, 36, 37, 46]);
        self.tally.demand_numbers(least, "shelf", &[0, 21]);
        self.tally.demand_numbers(least, "rules", &[0, 1, 2, 3, 4, 5, 6, 7, 8, 9, 20]);
        self.tally.demand_numbers(least, "books", &[0, 1, 2, 5]);
        self.tally.demand_numbers(least, "location", &[4_096]);
        self.tally.demand(least, DAMAGES[..DAMAGES.len() - 2].iter().map(|name| format!("damaged: {name}")));
        let both = [(true, true), (true, false), (false, true), (false, false)];
        self.tally.demand(least, both.map(|(total, books)| format!("past by total {total}, by books {books}")));
        self.tally.demand_numbers(least, "46 before", &[0, 30, 31, 32, 33, 34, 35, 36, 37]);
        self.tally.demand(least, ["just fits", "the last book", "21 before 46", "a remainder"]);
        self.tally.demand(least, ["length true", "length false", "20 by the table"]);
        self.tally.demand_numbers(least, "rules of a program:", &[1, 2, 3, 4]);
        self.tally.demand(least, [1, 2, 127, 128].map(|rules| format!("{rules} rules")));
        self.report_by_rule(least);
    }
}

impl Harness {
    /// What the sums of rules are to have met.
    fn report_by_rule(&mut self, least: u64) {
        self.tally.demand_numbers(least, "rule total", &[0, 21]);
        self.tally.demand_numbers(least, "rules total", &[0, 21, 46]);
        self.tally.demand(least, [true, false].map(|made| format!("sums by rule, made for operators {made}")));
        self.tally.demand(least, ENDS.map(|(name, _)| format!("rule {name}")));
        self.tally.demand(least, ["rule with a sum", "rows of no bytes", "21 before 46 by rule"]);
        self.tally.demand(least, ROWS.map(|name| format!("rows {name}")));
        // Rows that go backwards have but the last rule.
        let summed = ["in order, more", "in order, one", "backwards, more", "repeated, more", "over again, more", "any, more"];
        self.tally.demand(least, summed.map(|name| format!("rows {name} rules with a sum")));
        self.tally.demand(least, (1..ROW_BYTES).map(|bytes| format!("part of a row: {bytes} bytes")));
        self.tally.demand(least, (-2..=2).map(|more| format!("sum of rules {more:+}")));
    }
}

fn main() -> ExitCode {
    harness::main("compare_figures", SEEDS, |exact| {
        let h = Harness {
            other: ffi::figures().unwrap_or(&Reference),
            walker: ffi::library().unwrap_or(&ffi::Plain),
            processor: ffi::processor().unwrap_or(&Reference),
            exact,
            tally: Tally::default(),
        };
        println!("rust against {}, calls alone of {}", h.other.name(), h.walker.name());
        h
    })
}
