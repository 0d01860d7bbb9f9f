//! Slow walks: tokens and answers that let a walk over a table do many steps for each token, and how long its quiet stretches are.

use crate::quiet::{Quiet, choice};
use crate::texts::Seed;
use crate::walker::MAX_RETURNS;

/// What a walk is fed.
#[derive(Clone, Debug)]
pub struct Feed {
    pub tokens: Vec<u16>,
    pub answers: Vec<u16>,
    pub allowance: u16,
}

impl Feed {
    /// n + r + 1.
    pub fn stretches(&self) -> u64 {
        self.tokens.len() as u64 + u64::from(self.allowance) + 1
    }
}

/// A token or value that no label has, as a rule.
const STRANGE: u16 = 4_242;
/// The steps of a search at the most.
const STEPS: usize = 20_000;

/// A walk whose tokens and answers are chosen as it asks for them.
struct Search<'a, 'b> {
    seed: &'a mut Seed,
    table: &'a [u16],
    quiet: &'a mut Quiet<'b>,
    /// The present token, once it was asked for; none inside past the end.
    present: Option<Option<u16>>,
    feed: Feed,
    /// The tokens that there may be, and the repairs left.
    most: usize,
    left: u16,
    /// One choice in so many is made by lot.
    lot: usize,
}

/// Tokens and answers by which a walk is slow: at a choice it takes the way with the longest quiet path, but for some taken by lot. At most so
/// many tokens.
pub fn slow(seed: &mut Seed, table: &[u16], quiet: &mut Quiet, most: usize, allowance: u16) -> Feed {
    let feed = Feed { tokens: Vec::new(), answers: Vec::new(), allowance };
    let lot = *seed.of(&[1, 2, 3, 6, 20]);
    let mut search = Search { seed, table, quiet, present: None, feed, most, left: allowance, lot };
    search.walk();
    // What was not used makes no walk slower.
    search.feed.allowance -= search.left;
    search.feed
}

impl Search<'_, '_> {
    fn walk(&mut self) {
        let (mut at, mut result, mut pending) = (1, 0, Vec::new());
        for _ in 0..STEPS {
            let Some(to) = self.step(at, &mut result, &mut pending) else { break };
            at = to;
        }
        if let Some(Some(token)) = self.present {
            self.feed.tokens.push(token);
        }
    }

    fn step(&mut self, at: usize, result: &mut u16, pending: &mut Vec<usize>) -> Option<usize> {
        let word = |at: usize| usize::from(self.table[at - 1]);
        match self.table[at - 1] {
            1 => Some(at + 1 + word(at + 1)),
            2 => Some(at + 1 - word(at + 1)),
            3 => self.matches(self.table[at]).then_some(at + 2),
            4 => {
                self.present(|search| *search.seed.of(&[0, 1, STRANGE]))?;
                self.read();
                Some(at + 1)
            }
            7 => {
                let (labels, default) = choice(self.table, at);
                let token = self.present(|search| search.chosen(&labels, default));
                let to = labels.iter().find(|(label, _)| Some(*label) == token);
                if to.is_some() {
                    self.read();
                }
                Some(to.map_or(default, |(_, to)| *to))
            }
            8 => {
                pending.push(at + 2);
                (pending.len() <= MAX_RETURNS).then(|| word(at + 1))
            }
            9 => pending.pop(),
            10 => {
                *result = self.table[at];
                Some(at + 2)
            }
            11 => {
                let (labels, default) = choice(self.table, at);
                Some(labels.iter().find(|(label, _)| label == result).map_or(default, |(_, to)| *to))
            }
            12 => None,
            768.. => {
                let (labels, default) = choice(self.table, at + 1);
                *result = self.chosen(&labels, default);
                self.feed.answers.push(*result);
                Some(at + 1)
            }
            256.. => Some(at + 1),
            _ => Some(at + 2),
        }
    }

    /// The present token; one that is not settled is chosen, or there is none any more.
    fn present(&mut self, choose: impl Fn(&mut Self) -> u16) -> Option<u16> {
        if self.present.is_none() {
            let some = self.feed.tokens.len() < self.most;
            self.present = Some(some.then(|| choose(self)));
        }
        self.present.flatten()
    }

    fn read(&mut self) {
        self.feed.tokens.extend(self.present.take().flatten());
    }

    /// Whether a match goes on: by a token that is read, or by a repair.
    fn matches(&mut self, token: u16) -> bool {
        if self.present(|search| if search.seed.one_in(8) { STRANGE } else { token }) == Some(token) {
            self.read();
            return true;
        }
        let repaired = self.left > 0;
        self.left -= u16::from(repaired);
        repaired
    }

    /// The label with the longest quiet path behind it, or a value for the default; now and then any.
    fn chosen(&mut self, labels: &[(u16, usize)], default: usize) -> u16 {
        let ways: Vec<(u16, usize)> = labels.iter().copied().chain([(STRANGE, default)]).collect();
        if self.seed.one_in(self.lot) {
            return self.seed.of(&ways).0;
        }
        let long = |at: usize, quiet: &mut Quiet| quiet.from(at).unwrap_or(0);
        let best = ways.iter().map(|(_, at)| long(*at, self.quiet)).max().unwrap_or(0);
        let best: Vec<u16> = ways.iter().filter(|(_, at)| long(*at, self.quiet) == best).map(|(label, _)| *label).collect();
        *self.seed.of(&best)
    }
}

/// The longest quiet stretch of a walk inside one of its rules: from the rule's start, from behind a read in it or from behind a call in which
/// something was read, to its return or to the next read, calls counted in full. `visited` has the locations of its steps.
pub fn stretch(table: &[u16], visited: &[u16]) -> u64 {
    let mut longest = 0;
    // For each rule that the walk is in, the steps at which its stretch began; none while it waits for one in which something was read.
    let mut begins = vec![Some(0)];
    for (done, at) in (1..).zip(visited) {
        let location = usize::from(*at);
        let next = visited.get(done).map(|next| usize::from(*next));
        let first = begins.iter().flatten().min().copied();
        longest = longest.max(first.map_or(0, |first| done - first));
        let reads = match table[location - 1] {
            3 | 4 => true,
            7 => next.is_some_and(|next| next != choice(table, location).1),
            8 => {
                begins.push(Some(done));
                false
            }
            9 => {
                begins.pop();
                if let Some(waits @ None) = begins.last_mut() {
                    *waits = Some(done);
                }
                false
            }
            _ => false,
        };
        if reads {
            begins.fill(None);
            if let Some(last) = begins.last_mut() {
                *last = Some(done);
            }
        }
    }
    longest as u64
}

#[cfg(test)]
mod tests {
    use super::*;
    use crate::chains::tower;
    use crate::figures::visits;
    use crate::processor::{resolve, table};
    use crate::side::Inputs;
    use crate::tables::bytes;

    /// The locations of a walk's steps.
    fn visited(table: &[u16], feed: &Feed) -> Vec<u16> {
        let (table, tokens, answers) = (bytes(table), bytes(&feed.tokens), bytes(&feed.answers));
        visits(Inputs { table: &table, tokens: &tokens, answers: &answers }, 20_000, feed.allowance, &mut vec![0; 120_000]).1
    }

    fn longest(text: &str, tokens: &[u16]) -> u64 {
        let text = format!("input: a b; type t: v w; mechanism m: u; rules {text} end");
        let (table, _) = table(&resolve(text.as_bytes()).expect("a good text"));
        stretch(&table, &visited(&table, &Feed { tokens: tokens.to_vec(), answers: Vec::new(), allowance: 0 }))
    }

    #[test]
    fn stretches() {
        // Up to the read, and behind it; the read that stops is counted.
        assert_eq!(longest("M: u u a u;", &[0]), 3);
        assert_eq!(longest("M: u a u u u;", &[0]), 4);
        assert_eq!(longest("M: u u a u;", &[]), 3);
        // A called rule in full; one in which something was read ends the stretch, and the caller's begins behind it.
        assert_eq!(longest("M: u @N u; N: u u;", &[]), 7);
        assert_eq!(longest("M: u @N u u; N: u a;", &[0]), 4);
        assert_eq!(longest("M: u @N u u u; N: u a;", &[0]), 4);
        assert_eq!(longest("M: u @N u u u u; N: u a u;", &[0]), 5);
        // An input choice ends it by a label, not by the default.
        assert_eq!(longest("M: u [ | a: | *: u ] u;", &[0]), 3);
        assert_eq!(longest("M: u [ | a: | *: u ] u;", &[1]), 5);
    }

    #[test]
    fn chosen_tokens_lead_on() {
        let program = resolve(&tower(64, 66, "a")).expect("a good text");
        let (table, starts) = table(&program);
        let mut quiet = Quiet::new(&table, &starts);
        let mut longest = 0;
        for number in 0..20 {
            let feed = slow(&mut Seed::new(number), &table, &mut quiet, 3, 1);
            assert!(feed.tokens.len() <= 3 && feed.allowance <= 1);
            longest = longest.max(visited(&table, &feed).len());
        }
        // Three reads and a repair.
        assert_eq!(longest, 65 * (1 + 4 * 66));
    }
}
