//! Figures over a shelf of books: how often each location was executed, which were executed at all, the books, and the steps of all of them.

use std::collections::{BTreeMap, BTreeSet};

use crate::processor::{Place, places};
use crate::side::{Inputs, REFUSAL, Reference};
use crate::walker::{self, BUDGET, Done, MAX_TABLE, REFUSED, Walk};

/// The numbers of figures: a count for each location, 64 words of coverage bits, books, grand total.
pub const COVERAGE: usize = MAX_TABLE;
pub const BOOKS: usize = COVERAGE + MAX_TABLE / 64;
pub const TOTAL: usize = BOOKS + 1;
pub const NUMBERS: usize = TOTAL + 1;
/// The bytes of figures, eight a number.
pub const FIGURES_BYTES: usize = 8 * NUMBERS;
/// The bytes of a rule's row: the start and the length of its name, and its location.
pub const ROW_BYTES: usize = 24;

/// A number passes 64 bits.
pub const PASSES: u16 = 46;
/// The rows are too few.
pub const SHORT: u16 = 20;

/// What is said of a shelf.
#[derive(Clone, Copy, PartialEq, Eq, Debug, Default)]
pub struct Shelf {
    pub number: u16,
    pub books: u64,
    pub total: u64,
    pub covered: u64,
    pub mean: u64,
    pub rest: u64,
}

/// The entries for figures, the rows of a text's rules with their number and how many they are, and sums over such rows: a number and the sum.
pub trait Figures {
    fn name(&self) -> &'static str;
    fn add_book(&self, inputs: Inputs, budget: u64, allowance: u16, figures: &mut [u8], events: &mut [u8]) -> Done;
    fn shelf(&self, figures: &[u8]) -> Shelf;
    fn rules(&self, text: &[u8], rows: &mut [u8]) -> (u16, u64);
    fn rule_total(&self, figures: &[u8], from: u64, to: u64) -> (u16, u64);
    fn rules_total(&self, figures: &[u8], rows: &[u8], end: u64) -> (u16, u64);
}

/// A whole call from a fresh walk, made step by step, and the location of each instruction that was done.
pub fn visits(inputs: Inputs, budget: u64, allowance: u16, events: &mut [u8]) -> (Done, Vec<u16>) {
    let mut walk = Walk::mending(allowance);
    let mut all = Done { number: BUDGET, written: 0, steps: 0 };
    let mut visited = Vec::new();
    while all.number == BUDGET && all.steps < budget {
        let (location, room) = (walk.location, &mut events[6 * all.written as usize..]);
        let done = walker::whole(inputs.table, inputs.tokens, inputs.answers, 1, &mut walk, room);
        all = Done { number: done.number, written: all.written + done.written, steps: all.steps + done.steps };
        visited.extend((done.steps == 1).then_some(location));
    }
    (all, visited)
}

/// Figures as what they say, each number as large as it comes out.
#[derive(Clone, PartialEq, Eq, Debug, Default)]
pub struct Sums {
    /// Of the locations that were executed at all.
    counts: BTreeMap<u16, u128>,
    books: u128,
}

/// Such a number in its bytes.
fn number(figures: &[u8], index: usize) -> u64 {
    figures[8 * index..][..8].iter().fold(0, |sum, byte| sum << 8 | u64::from(*byte))
}

/// Where a row has its rule's location, in numbers.
const ROW_LOCATION: usize = 2;

/// The first location of each rule and the one behind its last, by the whole rows: a rule ends where the next row's begins, the last one at `end`.
fn spans(rows: &[u8], end: u64) -> Vec<(u64, u64)> {
    let (rows, _part) = rows.as_chunks::<ROW_BYTES>();
    let mut to = end;
    let mut spans = Vec::new();
    for row in rows.iter().rev() {
        let from = number(row, ROW_LOCATION);
        spans.push((from, to));
        to = from;
    }
    spans
}

/// A sum, or that it passes 64 bits.
fn told(sum: u128) -> (u16, u64) {
    u64::try_from(sum).map_or((PASSES, 0), |sum| (0, sum))
}

impl Sums {
    /// The sums of all books of a shelf, each as the locations that it visited.
    pub fn of(shelf: &[Vec<u16>]) -> Sums {
        let mut all = shelf.concat();
        all.sort_unstable();
        let counts = all.chunk_by(|a, b| a == b).map(|same| (same[0], same.len() as u128)).collect();
        Sums { counts, books: shelf.len() as u128 }
    }

    /// Sums made up from counts of different locations.
    pub fn made_up(counts: &[(u16, u64)], books: u64) -> Sums {
        let counts = counts.iter().filter(|(_, count)| *count > 0).map(|(location, count)| (*location, u128::from(*count)));
        Sums { counts: counts.collect(), books: u128::from(books) }
    }

    fn total(&self) -> u128 {
        self.counts.values().sum()
    }

    /// The sum over rules, each from its first location up to the one behind its last. A location counts once for each rule that it is in, so that
    /// nothing is asked of how the rules stand to each other.
    fn of_rules(&self, rules: &[(u64, u64)]) -> u128 {
        let times = |location: u16| rules.iter().filter(|(from, to)| (*from..*to).contains(&u64::from(location))).count() as u128;
        self.counts.iter().map(|(location, count)| times(*location) * count).sum()
    }

    /// Whether each number is one of 64 bits.
    fn fits(&self) -> bool {
        self.counts.values().chain([&self.books, &self.total()]).all(|number| u64::try_from(*number).is_ok())
    }

    /// What figures say, if their parts fit together: a bit exactly for each location with a count, the total that of the counts, and none without a book.
    pub fn decode(figures: &[u8]) -> Option<Sums> {
        if figures.len() != FIGURES_BYTES {
            return None;
        }
        let locations = 1..=MAX_TABLE as u16;
        let counted = locations.clone().map(|location| (location, u128::from(number(figures, usize::from(location) - 1))));
        let counts: BTreeMap<u16, u128> = counted.filter(|(_, count)| *count > 0).collect();
        let bit = |location: &u16| {
            let at = usize::from(location - 1);
            number(figures, COVERAGE + at / 64) >> (at % 64) & 1 == 1
        };
        let covered: BTreeSet<u16> = locations.filter(bit).collect();
        let sums = Sums { counts, books: u128::from(number(figures, BOOKS)) };
        let fit = sums.counts.keys().eq(&covered) && sums.total() == u128::from(number(figures, TOTAL));
        (fit && (sums.books > 0 || sums.counts.is_empty())).then_some(sums)
    }

    /// The figures that say so. Each number fits.
    pub fn encode(&self) -> Vec<u8> {
        let mut numbers = vec![0; NUMBERS];
        for (location, count) in &self.counts {
            let at = usize::from(location - 1);
            numbers[at] = *count as u64;
            numbers[COVERAGE + at / 64] |= 1 << (at % 64);
        }
        numbers[BOOKS] = self.books as u64;
        numbers[TOTAL] = self.total() as u64;
        numbers.into_iter().flat_map(u64::to_be_bytes).collect()
    }
}

impl Figures for Reference {
    fn name(&self) -> &'static str {
        "rust"
    }

    fn add_book(&self, inputs: Inputs, budget: u64, allowance: u16, figures: &mut [u8], events: &mut [u8]) -> Done {
        let Some(mut sums) = Sums::decode(figures) else { return REFUSAL };
        let mut written = events.to_vec();
        let (done, visited) = visits(inputs, budget, allowance, &mut written);
        for location in visited {
            *sums.counts.entry(location).or_default() += 1;
        }
        sums.books += 1;
        if !sums.fits() {
            return Done { number: PASSES, ..REFUSAL };
        }
        figures.copy_from_slice(&sums.encode());
        events.copy_from_slice(&written);
        done
    }

    fn shelf(&self, figures: &[u8]) -> Shelf {
        let Some(sums) = Sums::decode(figures) else { return Shelf { number: REFUSED, ..Shelf::default() } };
        let (books, total) = (sums.books as u64, sums.total() as u64);
        let (mean, rest) = (total.checked_div(books).unwrap_or(0), total.checked_rem(books).unwrap_or(0));
        Shelf { number: 0, books, total, covered: sums.counts.len() as u64, mean, rest }
    }

    fn rules(&self, text: &[u8], rows: &mut [u8]) -> (u16, u64) {
        let places = match places(text) {
            Ok(places) => places,
            Err(number) => return (number, 0),
        };
        let row = |place: &Place| [place.start, place.len, place.location].map(|number| (number as u64).to_be_bytes());
        let bytes: Vec<u8> = places.iter().flat_map(row).flatten().collect();
        match rows.get_mut(..bytes.len()) {
            Some(rows) => rows.copy_from_slice(&bytes),
            None => return (SHORT, 0),
        }
        (0, places.len() as u64)
    }

    fn rule_total(&self, figures: &[u8], from: u64, to: u64) -> (u16, u64) {
        Sums::decode(figures).map_or((REFUSED, 0), |sums| told(sums.of_rules(&[(from, to)])))
    }

    fn rules_total(&self, figures: &[u8], rows: &[u8], end: u64) -> (u16, u64) {
        Sums::decode(figures).map_or((REFUSED, 0), |sums| told(sums.of_rules(&spans(rows, end))))
    }
}

#[cfg(test)]
mod tests {
    use super::*;
    use crate::random::{self, Rng};
    use crate::tables::bytes;

    fn add(table: &[u16], tokens: &[u16], budget: u64, figures: &mut [u8], room: usize) -> Done {
        let (table, tokens) = (bytes(table), bytes(tokens));
        Reference.add_book(Inputs { table: &table, tokens: &tokens, answers: &[] }, budget, 0, figures, &mut vec![0; room])
    }

    #[track_caller]
    fn says(figures: &[u8], books: u64, total: u64, covered: u64, mean: u64, rest: u64) {
        assert_eq!(Reference.shelf(figures), Shelf { number: 0, books, total, covered, mean, rest });
    }

    /// `{[ | 1: .8 | *: > ]}`
    const TABLE: [u16; 14] = [7, 5, 5, 8, 1, 6, 1, 1, 6, 1, 3, 2, 12, 9];

    #[test]
    fn a_shelf() {
        let mut figures = vec![0; FIGURES_BYTES];
        says(&figures, 0, 0, 0, 0, 0);
        assert_eq!(add(&TABLE, &[1, 1], 99, &mut figures, 12), Done { number: 0, written: 2, steps: 11 });
        says(&figures, 1, 11, 6, 11, 0);
        for (location, count) in [(1, 3), (2, 0), (3, 2), (5, 2), (7, 0), (10, 1), (12, 2), (14, 1)] {
            assert_eq!(number(&figures, location - 1), count, "{location}");
        }
        assert_eq!(number(&figures, COVERAGE), 1 | 1 << 2 | 1 << 4 | 1 << 9 | 1 << 11 | 1 << 13);
        // 36 and 35 count what was done, and the book.
        assert_eq!(add(&TABLE, &[1, 1], 0, &mut figures, 12), Done { number: 36, written: 0, steps: 0 });
        assert_eq!(add(&TABLE, &[1, 1], 6, &mut figures, 6), Done { number: 35, written: 1, steps: 5 });
        says(&figures, 3, 16, 6, 5, 1);
        // 30 counts its instruction, 37 does not.
        assert_eq!(add(&[3, 1, 9], &[], 9, &mut figures, 6), Done { number: 30, written: 0, steps: 1 });
        assert_eq!(add(&[3, 1], &[1], 9, &mut figures, 6), Done { number: 37, written: 0, steps: 1 });
        assert_eq!(add(&[], &[1], 9, &mut figures, 6), Done { number: 37, written: 0, steps: 0 });
        says(&figures, 6, 18, 6, 3, 0);
        assert_eq!(number(&figures, 0), 7);
    }

    #[test]
    fn the_same_locations_in_one_call() {
        for seed in 0..2_000 {
            let mut rng = Rng::new(seed, 1);
            let table = bytes(&if rng.once_in(2) { random::structured(&mut rng, 40) } else { random::foreign(&mut rng, 40) });
            let (tokens, answers) = random::lead(&mut rng, &table);
            let (tokens, answers) = (bytes(&tokens), bytes(&answers));
            let (budget, allowance, room) = (rng.below(300) as u64, rng.below(4) as u16, rng.below(400));
            let inputs = Inputs { table: &table, tokens: &tokens, answers: &answers };
            let wanted = visits(inputs, budget, allowance, &mut vec![0; room]);
            let mut visited = Vec::new();
            let look = |location| visited.push(location as u16);
            let done = walker::visit(&table, &tokens, &answers, budget, allowance, &mut vec![0; room], look);
            assert_eq!((done, visited), wanted, "{seed}");
        }
    }

    #[test]
    fn past_64_bits() {
        let edge = |total: u64, books: u64| Sums::made_up(&[(4_096, total)], books).encode();
        let mut figures = edge(u64::MAX - 11, 5);
        assert_eq!(add(&TABLE, &[1, 1], 99, &mut figures, 12).number, 0);
        says(&figures, 6, u64::MAX, 7, u64::MAX / 6, 3);
        for (total, books) in [(u64::MAX - 10, 5), (7, u64::MAX), (u64::MAX, u64::MAX)] {
            let mut figures = edge(total, books);
            assert_eq!(add(&TABLE, &[1, 1], 99, &mut figures, 12), Done { number: 46, written: 0, steps: 0 });
            assert_eq!(figures, edge(total, books));
        }
        let mut figures = edge(7, u64::MAX - 1);
        assert_eq!(add(&TABLE, &[1, 1], 99, &mut figures, 12).number, 0);
        says(&figures, u64::MAX, 18, 7, 0, 18);
    }

    #[test]
    fn parts_that_do_not_fit() {
        let good = Sums::made_up(&[(1, 2), (64, 1), (65, 4)], 3).encode();
        says(&good, 3, 7, 3, 2, 1);
        let change = |index: usize, byte: usize, to: u8| {
            let mut figures = good.clone();
            figures[8 * index + byte] = to;
            figures
        };
        for (index, byte, to) in
            [(0, 7, 0), (0, 7, 3), (1, 7, 1), (COVERAGE, 7, 0), (COVERAGE + 1, 7, 3), (BOOKS, 7, 0), (TOTAL, 7, 8)]
        {
            let mut figures = change(index, byte, to);
            let before = figures.clone();
            assert_eq!(Reference.shelf(&figures), Shelf { number: 21, ..Shelf::default() });
            assert_eq!(add(&TABLE, &[], 9, &mut figures, 6), REFUSAL);
            assert_eq!(figures, before);
        }
        // The sum of the counts is 2^64 and a little.
        let mut wrapped = Sums::made_up(&[(1, u64::MAX), (2, 3)], 1).encode();
        assert_eq!(number(&wrapped, TOTAL), 2);
        assert_eq!(Reference.shelf(&wrapped).number, 21);
        wrapped.pop();
        assert_eq!(Reference.shelf(&wrapped).number, 21);
        assert_eq!(Reference.shelf(&[]).number, 21);
    }

    #[test]
    fn rows() {
        let text = b"rules M: @N; N: ; end";
        let mut rows = [9; 2 * ROW_BYTES + 1];
        assert_eq!(Reference.rules(text, &mut rows[..47]), (20, 0));
        assert_eq!(rows, [9; 49]);
        assert_eq!(Reference.rules(text, &mut rows), (0, 2));
        let wanted: Vec<u8> = [6u64, 1, 1, 13, 1, 4].iter().flat_map(|number| number.to_be_bytes()).chain([9]).collect();
        assert_eq!(rows[..], wanted);
        assert_eq!(Reference.rules(b"rules M: N; end", &mut []), (3, 0));
    }

    /// Rows with these locations; what else they hold does not count.
    fn rows_at(locations: &[u64]) -> Vec<u8> {
        locations.iter().flat_map(|location| [77, u64::MAX, *location]).flat_map(u64::to_be_bytes).collect()
    }

    #[test]
    fn a_rule() {
        let figures = Sums::made_up(&[(1, 2), (2, 30), (64, 400), (4_096, 5_000)], 3).encode();
        let total = |from, to| Reference.rule_total(&figures, from, to);
        for (from, to, sum) in [(1, 2, 2), (1, 3, 32), (2, 64, 30), (2, 65, 430), (4_096, 4_097, 5_000), (4_095, 4_096, 0)] {
            assert_eq!(total(from, to), (0, sum), "{from} {to}");
        }
        // No location is 0 or past 4,096, and none is from one on up to an earlier one.
        for (from, to, sum) in [(0, 2, 2), (0, u64::MAX, 5_432), (4_097, u64::MAX, 0), (65, 64, 0), (64, 64, 0), (u64::MAX, 1, 0)]
        {
            assert_eq!(total(from, to), (0, sum), "{from} {to}");
        }
        assert_eq!(Reference.rule_total(&figures[1..], 1, 2), (21, 0));
        let full = Sums::made_up(&[(7, u64::MAX)], 1).encode();
        assert_eq!(Reference.rule_total(&full, 1, 8), (0, u64::MAX));
    }

    #[test]
    fn all_rules() {
        let figures = Sums::made_up(&[(1, 2), (2, 30), (64, 400), (4_096, 5_000)], 3).encode();
        let total = |locations: &[u64], end| Reference.rules_total(&figures, &rows_at(locations), end);
        assert_eq!(total(&[1, 2, 64], 4_097), (0, 5_432));
        assert_eq!(total(&[2, 64], 4_096), (0, 430));
        assert_eq!(total(&[], 4_097), (0, 0));
        // 1 to 64, none, 1 to 3.
        assert_eq!(total(&[1, 65, 1], 4), (0, 464));
        assert_eq!(total(&[64, 2, 2], 1), (0, 0));
        // Whole rows.
        let rows = rows_at(&[1, 3]);
        for (len, sum) in [(48, 432), (47, 432), (25, 432), (24, 432), (23, 0), (1, 0)] {
            assert_eq!(Reference.rules_total(&figures, &rows[..len], 65), (0, sum), "{len}");
        }
        assert_eq!(Reference.rules_total(&figures[..8], &rows, 65), (21, 0));
    }

    #[test]
    fn a_sum_past_64_bits() {
        let half = 1 << 63;
        for (count, other, answer) in [(half - 1, 1, (0, u64::MAX)), (half - 1, 2, (46, 0)), (half, 0, (46, 0))] {
            let figures = Sums::made_up(&[(5, count), (9, other)], 1).encode();
            assert_eq!(Reference.rules_total(&figures, &rows_at(&[1, 6, 5, 6]), 10), answer);
        }
        // 21 comes first.
        assert_eq!(Reference.rules_total(&[], &rows_at(&[1, 6, 5, 6]), 10), (21, 0));
    }
}
