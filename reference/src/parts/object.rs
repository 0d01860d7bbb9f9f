//! Objects: the words that a part is written as where it is translated by itself (docs/LAYOUT.md).

use crate::processor::parts::{Name, Pair, Part, PartRule};

/// `PO`.
const MARK: u16 = 20_559;
/// The mark and the count of the words that follow, which has two of them.
const BEFORE: usize = 3;
/// The word, behind those, with the bytes of the part.
const PART_BYTES: usize = BEFORE + 1;

/// A rule has no type, or one that follows.
const PROCEDURE: u16 = 0;
const CHOICE: u16 = 1;

/// The words of an object behind the count.
#[derive(Clone, PartialEq, Eq, Debug)]
pub struct Object {
    behind: Vec<u16>,
}

/// A number that has a word: places and lengths of a text, and what is counted in one.
fn word(number: usize) -> u16 {
    u16::try_from(number).expect("a place in a text")
}

/// Place, length and bytes.
fn name(name: &Name) -> Vec<u16> {
    let spelling = name.spelling.iter().map(|byte| u16::from(*byte));
    [word(name.start), word(name.spelling.len())].into_iter().chain(spelling).collect()
}

/// Bytes two a word, an odd last one with 0 behind it.
fn packed(bytes: &[u8]) -> impl Iterator<Item = u16> {
    bytes.chunks(2).map(|pair| u16::from_be_bytes([pair[0], pair.get(1).copied().unwrap_or(0)]))
}

/// Place and length of the `^`, section, operand rule.
fn pair(pair: &Pair) -> Vec<u16> {
    [vec![word(pair.sign), word("^".len())], name(&pair.section), name(&pair.operand)].concat()
}

fn rule(rule: &PartRule) -> Vec<u16> {
    let of = rule.of.as_ref().map_or(vec![PROCEDURE], |of| [vec![CHOICE], name(of)].concat());
    let called = rule.called.iter().flat_map(|called| name(called.rule()));
    let mut words = [name(&rule.name), of, vec![word(rule.called.len())]].concat();
    words.extend(called);
    words.push(word(rule.cells.len()));
    words.extend(&rule.cells);
    words
}

impl Object {
    /// Of a part without faults, with the texts that it was made from.
    pub fn new(common: &[u8], text: &[u8], part: &Part) -> Object {
        let mut behind: Vec<u16> = [common.len(), text.len(), part.rules.len(), part.pairs.len()].map(word).to_vec();
        behind.extend(packed(common));
        behind.extend(part.pairs.iter().flat_map(pair));
        behind.extend(part.rules.iter().flat_map(rule));
        Object { behind }
    }

    pub fn words(&self) -> Vec<u16> {
        self.with(&[])
    }

    /// The same with more words at its end, which are no object's: this crate's own linker wants the text.
    pub fn with(&self, more: &[u16]) -> Vec<u16> {
        let count = (self.behind.len() + more.len()) as u32;
        [MARK, (count >> 16) as u16, count as u16]
            .into_iter()
            .chain(self.behind.iter().copied())
            .chain(more.iter().copied())
            .collect()
    }
}

/// The first object of words: its length, and the bytes that its part has. Nothing where they do not begin with one.
pub fn first(words: &[u16]) -> Option<(usize, usize)> {
    let (before, behind) = words.split_at_checked(BEFORE)?;
    let count = (u32::from(before[1]) << 16 | u32::from(before[2])) as usize;
    let bytes = usize::from(*words.get(PART_BYTES)?);
    (before[0] == MARK && bytes <= count && count <= behind.len()).then_some((BEFORE + count, bytes))
}
