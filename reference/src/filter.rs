//! The character filter: a second one, by sums over the byte values.
//!
//! Each entry adds 1 at its first byte and takes it away behind its last, so that running sums count the entries that a byte is in; sums of the
//! entries' numbers, taken likewise, name the one entry of a byte that is in one alone.

use crate::side::{Filtered, Folder, Reference};

/// More than 64 entries.
pub const MANY: u16 = 9;
/// The lent buffer is too short for the tokens.
pub const SHORT: u16 = 20;
/// An entry whose first byte exceeds its last.
pub const ORDER: u16 = 42;
/// A byte in two entries.
pub const TWICE: u16 = 43;
/// A byte in none.
pub const NOWHERE: u16 = 44;

const MAX_ENTRIES: usize = 64;

impl Folder for Reference {
    fn name(&self) -> &'static str {
        "rust"
    }

    fn fold(&self, filter: &[u8], text: &[u8], tokens: &mut [u8]) -> Filtered {
        let folded = match folded(filter) {
            Ok(folded) => folded,
            Err((number, at)) => return Filtered { number, at: at as u64, written: 0 },
        };
        let tokens = tokens.as_chunks_mut().0;
        let Some(tokens) = tokens.get_mut(..text.len()) else { return Filtered { number: SHORT, at: 0, written: 0 } };
        for (token, byte) in tokens.iter_mut().zip(text) {
            *token = folded[usize::from(*byte)];
        }
        Filtered { number: 0, at: 0, written: text.len() as u64 }
    }
}

/// The token of each byte value, high byte first; or the number of what is wrong, and what that number names.
fn folded(filter: &[u8]) -> Result<[[u8; 2]; 256], (u16, usize)> {
    let entries = filter.as_chunks::<4>().0;
    if entries.len() > MAX_ENTRIES {
        return Err((MANY, 0));
    }
    if let Some(entry) = entries.iter().position(|[first, last, ..]| first > last) {
        return Err((ORDER, entry));
    }
    let (mut counts, mut numbers) = ([0i32; 257], [0i32; 257]);
    for (number, [first, last, ..]) in (0..).zip(entries) {
        let (from, behind) = (usize::from(*first), usize::from(*last) + 1);
        counts[from] += 1;
        counts[behind] -= 1;
        numbers[from] += number;
        numbers[behind] -= number;
    }
    for byte in 1..256 {
        counts[byte] += counts[byte - 1];
        numbers[byte] += numbers[byte - 1];
    }
    for (number, wrong) in [(TWICE, 2..=i32::MAX), (NOWHERE, 0..=0)] {
        if let Some(byte) = counts[..256].iter().position(|count| wrong.contains(count)) {
            return Err((number, byte));
        }
    }
    Ok(std::array::from_fn(|byte| {
        let [_, _, high, low] = entries[numbers[byte] as usize];
        [high, low]
    }))
}

#[cfg(test)]
mod tests {
    use super::*;

    fn entries(entries: &[(u8, u8, u16)]) -> Vec<u8> {
        let entry = |(first, last, token): &(u8, u8, u16)| [[*first, *last], token.to_be_bytes()].concat();
        entries.iter().flat_map(entry).collect()
    }

    #[track_caller]
    fn is(filter: &[u8], number: u16, at: u64) {
        let mut tokens = [7; 5];
        let done = Reference.fold(filter, b"a0", &mut tokens);
        assert_eq!((done.number, done.at), (number, at));
        if number != 0 {
            assert_eq!((done.written, tokens), (0, [7; 5]));
        }
    }

    #[test]
    fn tokens() {
        let filter = entries(&[(b'a', 255, 258), (0, b'/', 3), (b'0', b'9', 65_535), (b':', b'`', 3)]);
        let mut tokens = [7; 9];
        let done = Reference.fold(&filter, b"a0/:", &mut tokens);
        assert_eq!(done, Filtered { number: 0, at: 0, written: 4 });
        assert_eq!(tokens, [1, 2, 255, 255, 0, 3, 0, 3, 7]);
        let done = Reference.fold(&filter, b"", &mut tokens[..0]);
        assert_eq!(done, Filtered { number: 0, at: 0, written: 0 });
        let done = Reference.fold(&filter, b"a0/:", &mut tokens[..7]);
        assert_eq!(done, Filtered { number: SHORT, at: 0, written: 0 });
        let done = Reference.fold(&filter, b"z", &mut tokens[..3]);
        assert_eq!(done, Filtered { number: 0, at: 0, written: 1 });
        assert_eq!(tokens, [1, 2, 255, 255, 0, 3, 0, 3, 7]);
    }

    #[test]
    fn checks() {
        is(&[], NOWHERE, 0);
        is(&[0, 255, 0], NOWHERE, 0);
        is(&entries(&[(0, 255, 1)]), 0, 0);
        is(&entries(&[(1, 255, 1)]), NOWHERE, 0);
        is(&entries(&[(0, 254, 1)]), NOWHERE, 255);
        is(&entries(&[(0, 99, 1), (101, 255, 1)]), NOWHERE, 100);
        is(&entries(&[(0, 255, 1), (255, 255, 1)]), TWICE, 255);
        is(&entries(&[(0, 255, 1), (0, 0, 1)]), TWICE, 0);
        is(&entries(&[(10, 90, 1), (80, 255, 1)]), TWICE, 80);
        is(&entries(&[(80, 255, 1), (10, 90, 1), (10, 10, 0)]), TWICE, 10);
        is(&entries(&[(0, 255, 1), (7, 7, 1), (9, 8, 1), (2, 1, 0)]), ORDER, 2);
        // 64 entries and a part of one; 65.
        let mut all: Vec<(u8, u8, u16)> = (0..64).map(|i| (4 * i, 4 * i + 3, u16::from(i))).collect();
        let mut filter = entries(&all);
        is(&filter, 0, 0);
        filter.extend([9, 3, 0]);
        is(&filter, 0, 0);
        all.push((1, 0, 0));
        is(&entries(&all), MANY, 0);
    }
}
