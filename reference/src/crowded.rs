//! Tables made to cost a loader time, or to lead it astray: choices that share one choice table or overlap in theirs, and long rows and chains.

use crate::random::Rng;

/// What crowded tables of 4,096 words are full of; all of them are taken.
pub const CROWDED: [&str; 6] = ["operations", "jumps back", "calls", "shared table", "overlapping", "nested tables"];

const SIZE: usize = 4_096;

pub fn crowded(sort: usize) -> Vec<u16> {
    match sort {
        0 => row(SIZE),
        1 => jumps_back(SIZE),
        2 => calls(SIZE),
        3 => shared_table(1_020),
        4 => overlapping(511),
        _ => nested(SIZE),
    }
}

/// Operations of all kinds, one after the other.
fn row(size: usize) -> Vec<u16> {
    let mut table: Vec<u16> = (0..size).map(|i| 256 + (i % 1_024) as u16).collect();
    table[size - 1] = 9;
    table
}

/// To the end, and from there back by jumps, two words each time.
fn jumps_back(size: usize) -> Vec<u16> {
    let mut table = vec![1, size as u16 - 3];
    while table.len() + 1 < size {
        // From location l the operand at l + 1 leads to l - 2; the lowest to itself.
        let distance = if table.len() == 2 { 1 } else { 3 };
        table.extend([2, distance]);
    }
    table.truncate(size);
    table
}

/// Calls of each other, far and near.
fn calls(size: usize) -> Vec<u16> {
    let mut table = Vec::new();
    while table.len() + 2 < size {
        let to = (table.len() * 7 / 2 * 2) % (size - 2) + 1;
        table.extend([8, to as u16]);
    }
    table.resize(size, 9);
    table
}

/// So many choices one after the other by their labels, all over one choice table of as many labels.
fn shared_table(choices: usize) -> Vec<u16> {
    let mut table = Vec::new();
    let at = 2 * choices + 1;
    for i in 0..choices {
        table.extend([11, (at - 2 * i - 2) as u16]);
    }
    table.push(choices as u16);
    for i in 0..choices {
        let distance = table.len() + 2 - (2 * i + 1);
        table.extend([i as u16, distance as u16]);
    }
    table.push(9);
    table
}

/// Choices over choice tables that overlap: each begins one entry further on, and a word is a count of one, a distance of those before it.
fn overlapping(choices: usize) -> Vec<u16> {
    // As a count it keeps all tables inside, as a distance it leads from the table's k-th entry to choice k.
    let (at, count) = (2 * choices + 1, 2 * choices + 2);
    let mut table = [11, at as u16 - 2].repeat(choices);
    for entry in 0..choices + count {
        let last = at + 2 * entry - (2 * choices - 1);
        table.push(if entry < choices { count as u16 } else { last as u16 });
        // A label, and a default.
        table.push(9);
    }
    table
}

/// Choices whose tables are words of other choices' tables, with 64 labels each that lead all over the table.
fn nested(size: usize) -> Vec<u16> {
    let mut table = Vec::new();
    // Each part: a choice over the choice table that follows, 64 labels that lead to the starts of the parts before, then the next part.
    while table.len() + 132 < size {
        let start = table.len() + 1;
        table.extend([11, 1, 64]);
        for label in 0..64 {
            let target = start - 131 * (label % (start / 131 + 1));
            let distance = table.len() + 2 - target;
            table.extend([label as u16, distance as u16]);
        }
    }
    table.resize(size, 9);
    table
}

/// A small table of choices that share choice tables or overlap in them: words that are counts, labels and distances at once.
pub fn shared(rng: &mut Rng, size: usize) -> Vec<u16> {
    let choices = rng.within(1, 5);
    let from = 2 * choices + 1;
    let end = from + rng.within(4, size.max(4));
    let starts: Vec<usize> = (0..choices).map(|_| rng.within(from, end - 1)).collect();
    let mut table = Vec::new();
    for (i, start) in starts.iter().enumerate() {
        table.extend([rng.pick(&[7, 11]), (start - 2 * i - 2) as u16]);
    }
    for at in from..end {
        let target = if rng.once_in(30) { rng.below(3) } else { 2 * rng.below(choices) + 1 };
        let most = (end - at) / 2 + usize::from(rng.once_in(30));
        let word = match rng.below(8) {
            _ if starts.contains(&at) => rng.below(most + 1),
            0..=2 => at - target,
            _ => usize::from(rng.pick(&[4, 9, 12, 256u16])),
        };
        table.push(word as u16);
    }
    table.extend((0..rng.below(3)).map(|_| rng.pick(&[4, 9, 12, 256])));
    table.push(9);
    table
}
