//! Declared names that are spelt nearly like a word.

use crate::known::{Class, Known};

/// The most names that are offered.
const MOST: usize = 3;

/// The nearest names and strings of those classes, the nearest first.
pub fn nearest(known: &Known, spelling: &[u8], classes: &[Class]) -> Vec<String> {
    let declared = known.all.iter().filter(|declared| classes.contains(&declared.class));
    let words = declared.flat_map(|declared| [Some(declared.name), declared.string]).flatten();
    near(words.map(|at| known.source.spelling(at)), spelling)
}

/// The nearest of these words.
pub fn near<'a>(words: impl Iterator<Item = &'a [u8]>, spelling: &[u8]) -> Vec<String> {
    let far = (1 + spelling.len() / 4).min(spelling.len().saturating_sub(1));
    let mut found: Vec<(usize, &[u8])> = words.map(|word| (distance(word, spelling), word)).collect();
    found.retain(|(distance, _)| *distance <= far);
    found.sort();
    found.dedup();
    found.truncate(MOST);
    found.into_iter().map(|(_, word)| crate::place::quoted(word)).collect()
}

/// How many bytes have to be put in, taken out, changed or exchanged with the next; capitals count as small letters.
fn distance(first: &[u8], second: &[u8]) -> usize {
    let (first, second) = (first.to_ascii_lowercase(), second.to_ascii_lowercase());
    let mut rows: Vec<Vec<usize>> = vec![(0..=second.len()).collect()];
    for i in 1..=first.len() {
        let mut row = vec![i];
        for j in 1..=second.len() {
            let changed = rows[i - 1][j - 1] + usize::from(first[i - 1] != second[j - 1]);
            let mut least = changed.min(rows[i - 1][j] + 1).min(row[j - 1] + 1);
            if i > 1 && j > 1 && first[i - 1] == second[j - 2] && first[i - 2] == second[j - 1] {
                least = least.min(rows[i - 2][j - 2] + 1);
            }
            row.push(least);
        }
        rows.push(row);
    }
    rows[first.len()][second.len()]
}

#[cfg(test)]
mod tests {
    use super::{distance, near};

    #[test]
    fn distances() {
        for (first, second, apart) in [("", "", 0), ("ab", "AB", 0), ("placed", "plced", 1), ("ab", "ba", 1), ("abc", "xyz", 3)] {
            assert_eq!(distance(first.as_bytes(), second.as_bytes()), apart, "{first} {second}");
        }
        let words: [&[u8]; 3] = [b"pageTurned", b"placed", b"place"];
        assert_eq!(near(words.into_iter(), b"plced"), ["`placed`", "`place`"]);
    }
}
