//! Table files: a second writer and loader, and the locations of a table that are reachable.
//!
//! A file is read as records first, and only then its header and lengths are looked at. Reachable locations are found lowest first, kept as
//! bits; each entry of a choice table is gone through once, however many choices share it.

use crate::side::Reference;
use crate::walker::MAX_TABLE;

/// No file of the form, a verdict above 1, or a length outside 1 to 4,096.
pub const FORM: u16 = 40;
/// What is lent is too short.
pub const SHORT: u16 = 20;
/// A reachable location gives 37.
pub const REACHES: u16 = 41;

const HEADER: [u8; 2] = *b"HD";
const WORDS: [u8; 2] = *b"TW";
/// The words of a record, but for the last.
const RECORD: usize = 256;

/// What `sst_load` answers, the lent bytes apart.
#[derive(Clone, Copy, PartialEq, Eq, Debug)]
pub struct Loaded {
    pub number: u16,
    pub words: u64,
    pub verdict: u64,
}

/// What `sst_write_file` answers, the lent bytes apart.
#[derive(Clone, Copy, PartialEq, Eq, Debug)]
pub struct Written {
    pub number: u16,
    pub words: u64,
}

/// The entries `sst_load` and `sst_write_file`.
pub trait Files {
    fn name(&self) -> &'static str;
    fn load(&self, file: &[u8], table: &mut [u8]) -> Loaded;
    fn write(&self, table: &[u8], verdict: u64, file: &mut [u8]) -> Written;
}

impl Files for Reference {
    fn name(&self) -> &'static str {
        "rust"
    }

    fn load(&self, file: &[u8], table: &mut [u8]) -> Loaded {
        match loaded(file, table.len() / 2) {
            Ok((words, verdict)) => {
                fill(table, &words);
                Loaded { number: 0, words: words.len() as u64, verdict: u64::from(verdict) }
            }
            Err(number) => {
                fill(table, &[]);
                Loaded { number, words: 0, verdict: 0 }
            }
        }
    }

    fn write(&self, table: &[u8], verdict: u64, file: &mut [u8]) -> Written {
        match written(&words(table), verdict, file.len() / 2) {
            Ok(words) => {
                fill(file, &words);
                Written { number: 0, words: words.len() as u64 }
            }
            Err(number) => {
                fill(file, &[]);
                Written { number, words: 0 }
            }
        }
    }
}

/// The whole words of bytes.
pub fn words(bytes: &[u8]) -> Vec<u16> {
    bytes.as_chunks().0.iter().map(|word| u16::from_be_bytes(*word)).collect()
}

/// Writes the words and zeros behind them; an odd last byte is kept.
pub fn fill(lent: &mut [u8], words: &[u16]) {
    let places = lent.as_chunks_mut().0;
    let (written, behind) = places.split_at_mut(words.len());
    written.iter_mut().zip(words).for_each(|(place, word)| *place = word.to_be_bytes());
    behind.fill([0, 0]);
}

/// The table and the verdict of a file, where so many words are lent.
fn loaded(file: &[u8], room: usize) -> Result<(Vec<u16>, u16), u16> {
    let (table, verdict) = read(file).ok_or(FORM)?;
    if table.len() > room {
        return Err(SHORT);
    }
    if reached(&table).is_none() { Err(REACHES) } else { Ok((table, verdict)) }
}

/// The words of the first record, if it has that mark; the bytes behind it are left.
fn record<'a>(bytes: &mut &'a [u8], mark: [u8; 2]) -> Option<&'a [[u8; 2]]> {
    let (head, rest) = bytes.split_first_chunk::<4>()?;
    let count = u16::from_be_bytes([head[2], head[3]]);
    if head[..2] != mark {
        return None;
    }
    let (words, rest) = rest.split_at_checked(2 * usize::from(count))?;
    *bytes = rest;
    Some(words.as_chunks().0)
}

/// The table and the verdict of bytes that are exactly a file.
fn read(file: &[u8]) -> Option<(Vec<u16>, u16)> {
    let mut rest = file;
    let [length, verdict] = *record(&mut rest, HEADER)? else { return None };
    let (length, verdict) = (usize::from(u16::from_be_bytes(length)), u16::from_be_bytes(verdict));
    let mut table = Vec::with_capacity(length);
    while !rest.is_empty() {
        let words = record(&mut rest, WORDS)?;
        let fits = if rest.is_empty() { (1..=RECORD).contains(&words.len()) } else { words.len() == RECORD };
        if !fits {
            return None;
        }
        table.extend(words.iter().map(|word| u16::from_be_bytes(*word)));
    }
    let right = verdict <= 1 && (1..=MAX_TABLE).contains(&length) && table.len() == length;
    right.then_some((table, verdict))
}

/// The words of a table's file, where so many words are lent.
fn written(table: &[u16], verdict: u64, room: usize) -> Result<Vec<u16>, u16> {
    if verdict > 1 || !(1..=MAX_TABLE).contains(&table.len()) {
        return Err(FORM);
    }
    let mark = u16::from_be_bytes;
    let mut file = vec![mark(HEADER), 2, table.len() as u16, verdict as u16];
    for part in table.chunks(RECORD) {
        file.extend([mark(WORDS), part.len() as u16]);
        file.extend_from_slice(part);
    }
    if file.len() > room {
        return Err(SHORT);
    }
    if reached(table).is_none() { Err(REACHES) } else { Ok(file) }
}

/// A bit for each location from 0 on.
pub struct Bits([u64; MAX_TABLE / 64 + 1]);

impl Bits {
    fn none() -> Bits {
        Bits([0; MAX_TABLE / 64 + 1])
    }

    /// Sets a bit; whether it was not set.
    fn set(&mut self, at: usize) -> bool {
        let (word, bit) = (&mut self.0[at / 64], 1 << (at % 64));
        let new = *word & bit == 0;
        *word |= bit;
        new
    }

    pub fn has(&self, at: usize) -> bool {
        self.0[at / 64] >> (at % 64) & 1 == 1
    }
}

/// The reachable locations of a table; none where one of them gives 37.
pub fn reached(table: &[u16]) -> Option<Bits> {
    let mut reach = Reach { table, marked: Bits::none(), open: Bits::none(), lowest: 0, next: Vec::new() };
    reach.mark(1)?;
    while let Some(location) = reach.lowest_open() {
        reach.visit(location)?;
    }
    Some(reach.marked)
}

struct Reach<'a> {
    table: &'a [u16],
    marked: Bits,
    /// Marked, and not yet visited; none of them is below the bits of the word `lowest`.
    open: Bits,
    lowest: usize,
    /// For a location that holds a label's distance: itself, or, once gone through, one further on in the same choice table.
    next: Vec<u16>,
}

impl Reach<'_> {
    /// The word at a location; none outside.
    fn word(&self, location: usize) -> Option<usize> {
        self.table.get(location.checked_sub(1)?).map(|word| usize::from(*word))
    }

    /// Makes a location reachable; none where a fetch there is outside.
    fn mark(&mut self, location: usize) -> Option<()> {
        self.word(location)?;
        if self.marked.set(location) {
            self.open.set(location);
            self.lowest = self.lowest.min(location / 64);
        }
        Some(())
    }

    fn lowest_open(&mut self) -> Option<usize> {
        while let Some(word) = self.open.0.get_mut(self.lowest) {
            if *word != 0 {
                let bit = word.trailing_zeros() as usize;
                *word &= *word - 1;
                return Some(64 * self.lowest + bit);
            }
            self.lowest += 1;
        }
        None
    }

    /// Marks all that may follow a location.
    fn visit(&mut self, location: usize) -> Option<()> {
        let operand = location + 1;
        match self.word(location)? {
            1 => self.mark(operand + self.word(operand)?),
            2 => self.mark(operand.checked_sub(self.word(operand)?)?),
            3 | 5 | 6 | 10 | 13 => self.word(operand).and_then(|_| self.mark(location + 2)),
            4 | 256..=1279 => self.mark(location + 1),
            7 | 11 => self.choice(operand + self.word(operand)?),
            8 => {
                self.mark(self.word(operand)?)?;
                self.mark(location + 2)
            }
            9 | 12 => Some(()),
            _ => None,
        }
    }

    /// Marks where the labels of the choice table at a location lead, and its default.
    fn choice(&mut self, table: usize) -> Option<()> {
        let last = table + 2 * self.word(table)?;
        self.mark(last + 1)?;
        if self.next.is_empty() {
            self.next = (0..self.table.len() as u16 + 3).collect();
        }
        let mut distance = self.ahead(table + 2);
        while distance <= last {
            self.mark(distance.checked_sub(self.word(distance)?)?)?;
            self.next[distance] = distance as u16 + 2;
            distance = self.ahead(distance);
        }
        Some(())
    }

    /// The first distance from here on that has not been gone through.
    fn ahead(&mut self, from: usize) -> usize {
        let mut at = from;
        while usize::from(self.next[at]) != at {
            let further = self.next[usize::from(self.next[at])];
            self.next[at] = further;
            at = usize::from(further);
        }
        at
    }
}

#[cfg(test)]
mod tests {
    use super::*;
    use crate::crowded;
    use crate::random::{self, Rng};
    use crate::tables::bytes;
    use std::collections::BTreeSet;

    fn taken(table: &[u16]) -> bool {
        reached(table).is_some()
    }

    fn locations(table: &[u16]) -> Vec<usize> {
        let reached = reached(table).expect("taken");
        (1..=table.len()).filter(|location| reached.has(*location)).collect()
    }

    const P2: [u16; 18] = [7, 7, 1, 12, 6, 10, 1, 8, 2, 2, 8, 3, 8, 1, 3, 2, 16, 9];

    #[test]
    fn the_papers_tables() {
        assert_eq!(locations(&[9]), [1]);
        assert_eq!(locations(&P2), [1, 3, 5, 7, 14, 16, 18]);
        assert_eq!(locations(&[2, 1, 9]), [1]);
        assert_eq!(locations(&[1, 3, 2, 3, 9]), [1, 5]);
        assert_eq!(locations(&[3, 0, 9]), [1, 3]);
        // The jumpBack behind the default's input is reachable.
        assert_eq!(locations(&[7, 3, 1, 8, 1, 1, 4, 3, 1, 2, 8, 9]), [1, 3, 8, 10, 12]);
        assert_eq!(locations(&[8, 1, 9]), [1, 3]);
    }

    #[test]
    fn each_37() {
        // The place after a call counts, and an operation's next location.
        assert!(!taken(&[]));
        assert!(!taken(&[8, 1]));
        assert!(!taken(&[256]));
        for number in [0, 14, 255, 1280, 65_535] {
            assert!(!taken(&[number, 9, 9]), "{number}");
        }
        for number in [256, 511, 512, 767, 768, 1023, 1024, 1279, 4] {
            assert!(taken(&[number, 9]) && !taken(&[number]), "{number}");
        }
        for number in [3, 5, 6, 10, 13] {
            assert!(taken(&[number, 0, 9]) && !taken(&[number, 0]) && !taken(&[number]), "{number}");
        }
        // To itself, to location 0, past the end.
        assert!(taken(&[2, 1]) && !taken(&[2, 2]) && !taken(&[2, 65_535]) && !taken(&[2]));
        assert!(taken(&[1, 1, 9]) && !taken(&[1, 1]) && !taken(&[1, 65_535, 9]));
        // Its own operand as an instruction: 0 is none.
        assert!(!taken(&[1, 0]) && !taken(&[2, 0]));
        assert!(!taken(&[8, 0, 9]) && !taken(&[8, 4, 9]) && taken(&[8, 3, 9]));
        // What is not reachable may be anything.
        assert!(taken(&[9, 0, 65_535]));
    }

    #[test]
    fn choice_tables() {
        for choice in [7, 11] {
            // No label; the default just behind, and just past the table.
            assert_eq!(locations(&[choice, 1, 0, 9]), [1, 4]);
            assert!(!taken(&[choice, 1, 0]) && !taken(&[choice, 1]) && !taken(&[choice]));
            // Each label counts, also one that repeats.
            assert_eq!(locations(&[choice, 3, 9, 12, 2, 5, 3, 5, 4, 9]), [1, 4, 5, 10]);
            assert!(!taken(&[choice, 3, 9, 12, 2, 5, 3, 5, 9, 9]));
            assert!(!taken(&[choice, 3, 9, 12, 2, 5, 3, 5, 4]));
            // To its own distance, to location 0, before it.
            assert!(taken(&[choice, 1, 1, 5, 4, 9]));
            assert!(!taken(&[choice, 1, 1, 5, 5, 9]));
            assert!(!taken(&[choice, 1, 1, 5, 6, 9]));
            // A count that would be right if it were cut to 16 bits.
            assert!(!taken(&[choice, 1, 32_768, 9]));
            assert!(!taken(&[choice, 65_535, 9]));
        }
    }

    /// What may follow a location, as the request lists it.
    fn ways(table: &[u16], location: usize) -> Option<Vec<usize>> {
        let word = |location: usize| table.get(location.wrapping_sub(1)).map(|word| usize::from(*word));
        let operand = word(location + 1);
        Some(match word(location)? {
            1 => vec![location + 1 + operand?],
            2 => vec![(location + 1).saturating_sub(operand?)],
            3 | 5 | 6 | 10 | 13 => operand.map(|_| vec![location + 2])?,
            4 | 256..=1279 => vec![location + 1],
            8 => vec![operand?, location + 2],
            9 | 12 => vec![],
            7 | 11 => {
                let choice = location + 1 + operand?;
                let count = word(choice)?;
                let label = |i: usize| Some((choice + 2 * i).saturating_sub(word(choice + 2 * i)?));
                let mut ways: Vec<usize> = (1..=count).map(label).collect::<Option<_>>()?;
                ways.push(choice + 2 * count + 1);
                ways
            }
            _ => return None,
        })
    }

    /// The reachable locations by the definition: all that follows, over and over, until nothing is new.
    fn by_definition(table: &[u16]) -> Option<BTreeSet<usize>> {
        let mut all = BTreeSet::from([1]);
        loop {
            let mut more = all.clone();
            for location in &all {
                more.extend(ways(table, *location)?);
            }
            if more == all {
                return Some(all);
            }
            all = more;
        }
    }

    #[test]
    fn it_is_the_definition() {
        let (mut taken, mut refused) = (0, 0);
        for seed in 0..6_000 {
            let mut rng = Rng::new(seed, 1);
            let table = match seed % 4 {
                0 => random::structured(&mut rng, 40),
                1 => random::damaged(&mut rng, 40),
                2 => random::foreign(&mut rng, 30),
                _ => crowded::shared(&mut rng, 40),
            };
            let found = reached(&table).map(|bits| (1..=table.len()).filter(|at| bits.has(*at)).collect::<BTreeSet<_>>());
            assert_eq!(found, by_definition(&table), "{table:?}");
            taken += u32::from(found.is_some());
            refused += u32::from(found.is_none());
        }
        assert!(taken > 2_000 && refused > 2_000, "{taken} taken, {refused} not");
    }

    #[test]
    fn records() {
        for length in [1, 2, 255, 256, 257, 511, 512, 513, 4_095, 4_096] {
            let mut table = vec![4; length];
            table[length - 1] = 9;
            let file = written(&table, 1, usize::MAX).expect("taken");
            assert_eq!(file.len(), 4 + length + 2 * length.div_ceil(256), "{length}");
            assert_eq!(file[..6], [18_500, 2, length as u16, 1, 21_591, length.min(256) as u16]);
            assert_eq!(loaded(&bytes(&file), length), Ok((table.clone(), 1)));
            assert_eq!(loaded(&bytes(&file), length - 1), Err(SHORT));
            assert_eq!(written(&table, 1, file.len()), Ok(file.clone()));
            assert_eq!(written(&table, 1, file.len() - 1), Err(SHORT));
        }
        assert_eq!(written(&[9; 4_097], 0, usize::MAX), Err(FORM));
        assert_eq!(written(&[], 0, usize::MAX), Err(FORM));
        assert_eq!(written(&[9], 2, usize::MAX), Err(FORM));
        assert_eq!(written(&[9], 1 << 32, usize::MAX), Err(FORM));
        assert_eq!(written(&[8, 1], 0, 7), Err(SHORT));
        assert_eq!(written(&[8, 1], 0, 8), Err(REACHES));
    }

    #[test]
    fn other_bytes() {
        let file = written(&[4, 9], 0, 99).expect("taken");
        let good = bytes(&file);
        assert_eq!(loaded(&good, 2), Ok((vec![4, 9], 0)));
        for cut in 0..good.len() {
            assert_eq!(loaded(&good[..cut], 9), Err(FORM), "{cut}");
        }
        for more in [&[0][..], &[0, 0], b"TW\0\0", b"TW\0\x01\0\x09"] {
            assert_eq!(loaded(&[&good, more].concat(), 9), Err(FORM));
        }
        // Two records where one would do, a record that is not full before another, no record.
        assert_eq!(loaded(b"HD\0\x02\0\x02\0\0TW\0\x01\0\x04TW\0\x01\0\x09", 9), Err(FORM));
        assert_eq!(loaded(b"HD\0\x02\0\0\0\0", 9), Err(FORM));
        assert_eq!(loaded(b"HD\0\x02\0\x01\0\x02TW\0\x01\0\x09", 9), Err(FORM));
        assert_eq!(loaded(b"HD\0\x02\0\x02\0\0TW\0\x01\0\x09", 9), Err(FORM));
        assert_eq!(loaded(b"HD\0\x02\0\x01\0\0TW\0\x01\0\0", 0), Err(SHORT));
        assert_eq!(loaded(b"HD\0\x02\0\x01\0\0TW\0\x01\0\0", 1), Err(REACHES));
    }

    #[test]
    fn lent_bytes() {
        let file = bytes(&written(&[4, 9], 1, 99).expect("taken"));
        let mut table = [7; 7];
        assert_eq!(Reference.load(&file, &mut table), Loaded { number: 0, words: 2, verdict: 1 });
        assert_eq!(table, [0, 4, 0, 9, 0, 0, 7]);
        let mut table = [7; 3];
        assert_eq!(Reference.load(&file, &mut table), Loaded { number: SHORT, words: 0, verdict: 0 });
        assert_eq!(table, [0, 0, 7]);
        let mut lent = [7; 19];
        assert_eq!(Reference.write(&[0, 4, 0, 9, 5], 1, &mut lent), Written { number: 0, words: 8 });
        assert_eq!(lent[..16], file);
        assert_eq!(lent[16..], [0, 0, 7]);
        let mut lent = [7; 15];
        assert_eq!(Reference.write(&[0, 4, 0, 9], 1, &mut lent), Written { number: SHORT, words: 0 });
        assert_eq!(lent, [0, 0, 0, 0, 0, 0, 0, 0, 0, 0, 0, 0, 0, 0, 7]);
    }
}
