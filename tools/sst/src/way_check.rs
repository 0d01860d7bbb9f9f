//! A way round, checked by the table's words before it is shown. Nothing of what found it is used here.

use crate::way::{Fact, Hop, Path, Round, Way};
use std::collections::HashSet;

/// Whether each step of a way follows from the one before, none reads, and the last leads to the first.
pub fn holds(table: &[u16], starts: &[usize], way: &Way) -> bool {
    let check = Check { table, starts };
    let mut proved = HashSet::new();
    for (fact, path) in &way.facts {
        if !check.returns(*fact, path, &proved) {
            return false;
        }
        proved.insert(*fact);
    }
    match &way.round {
        Round::Cycle(path) => check.goes(path, &proved) && check.leads_back(path),
        Round::Calls(paths) => check.ring(paths, &proved),
    }
}

struct Check<'a> {
    table: &'a [u16],
    starts: &'a [usize],
}

impl Check<'_> {
    fn word(&self, location: usize) -> Option<usize> {
        self.table.get(location.checked_sub(1)?).map(|word| usize::from(*word))
    }

    /// From the rule's start to a return with that value.
    fn returns(&self, (start, value): Fact, path: &Path, proved: &HashSet<Fact>) -> bool {
        let end = path.end();
        let back = match value {
            None => self.word(end) == Some(9),
            Some(value) => {
                let words = [self.word(end), self.word(end + 1), self.word(end + 2)];
                words == [Some(10), Some(usize::from(value)), Some(9)]
            }
        };
        self.starts.contains(&start) && path.from == start && back && self.goes(path, proved)
    }

    /// One hop behind the other, each a quiet step.
    fn goes(&self, path: &Path, proved: &HashSet<Fact>) -> bool {
        let mut at = path.from;
        path.hops.iter().all(|hop| {
            let joined = hop.from == at;
            at = hop.to;
            joined && self.quiet(hop, proved).unwrap_or(false)
        })
    }

    fn quiet(&self, hop: &Hop, proved: &HashSet<Fact>) -> Option<bool> {
        let Hop { from, to, through } = *hop;
        let operand = self.word(from + 1);
        if let Some((rule, value)) = through {
            let called = self.word(from)? == 8 && operand? == rule && proved.contains(&(rule, value));
            let lands = match value {
                None => to == from + 2,
                Some(value) => self.word(from + 2)? == 11 && self.chosen(from + 2, usize::from(value))? == to,
            };
            return Some(called && lands);
        }
        Some(match self.word(from)? {
            1 => to == from + 1 + operand?,
            2 => to + operand? == from + 1,
            5 | 6 | 13 => to == from + 2,
            7 => to == self.otherwise(from)?,
            11 => to == self.otherwise(from)? || self.some_label(from, to)?,
            256..1280 => to == from + 1,
            _ => false,
        })
    }

    /// The location of a choice's labels.
    fn labels(&self, choice: usize) -> Option<usize> {
        Some(choice + 1 + self.word(choice + 1)?)
    }

    fn otherwise(&self, choice: usize) -> Option<usize> {
        let labels = self.labels(choice)?;
        Some(labels + 1 + 2 * self.word(labels)?)
    }

    /// Where the label in that row leads.
    fn row(&self, labels: usize, i: usize) -> Option<(usize, usize)> {
        let at = labels + 1 + 2 * i;
        Some((self.word(at)?, (at + 1).checked_sub(self.word(at + 1)?)?))
    }

    fn some_label(&self, choice: usize, to: usize) -> Option<bool> {
        let labels = self.labels(choice)?;
        Some((0..self.word(labels)?).any(|i| self.row(labels, i).is_some_and(|(_, target)| target == to)))
    }

    fn chosen(&self, choice: usize, value: usize) -> Option<usize> {
        let labels = self.labels(choice)?;
        let rows = (0..self.word(labels)?).filter_map(|i| self.row(labels, i));
        rows.into_iter().find(|(label, _)| *label == value).map(|(_, target)| target).or(self.otherwise(choice))
    }

    /// The jump at the end of the path leads to its start.
    fn leads_back(&self, path: &Path) -> bool {
        let end = path.end();
        self.word(end) == Some(2) && self.word(end + 1).is_some_and(|distance| path.from + distance == end + 1)
    }

    /// Each path comes from a rule's start to a call of the next one's.
    fn ring(&self, paths: &[Path], proved: &HashSet<Fact>) -> bool {
        let next = paths.iter().skip(1).chain(paths.first());
        !paths.is_empty()
            && paths.iter().zip(next).all(|(path, next)| {
                let calls = self.word(path.end()) == Some(8) && self.word(path.end() + 1) == Some(next.from);
                self.starts.contains(&path.from) && calls && self.goes(path, proved)
            })
    }
}

#[cfg(test)]
mod tests {
    use super::*;
    use crate::way::find;
    use reference::choosers;
    use reference::processor::{Answer, MAX_TABLE, process_with_starts};
    use reference::texts::Seed;

    /// Each way with one of its numbers changed.
    fn changed(way: &Way) -> Vec<Way> {
        let paths = |way: &mut Way, change: &dyn Fn(&mut Path)| match &mut way.round {
            Round::Cycle(path) => change(path),
            Round::Calls(paths) => paths.iter_mut().for_each(change),
        };
        let changes: [&dyn Fn(&mut Path); 4] = [
            &|path| path.from += 1,
            &|path| _ = path.hops.pop(),
            &|path| path.hops.iter_mut().for_each(|hop| hop.to += 1),
            &|path| path.hops.iter_mut().for_each(|hop| hop.through = hop.through.map(|(rule, _)| (rule, Some(9_999)))),
        ];
        let with = |change: &&dyn Fn(&mut Path)| {
            let mut other = way.clone();
            paths(&mut other, change);
            other
        };
        changes.iter().map(with).filter(|other| other != way).collect()
    }

    #[test]
    fn ways_are_found_exactly_where_there_are_some() {
        let (mut no, mut refused) = (0, 0);
        for number in 0..1_500 {
            let text = choosers::text(&choosers::program(&mut Seed::new(number)));
            let (answer, starts) = process_with_starts(text.as_bytes(), MAX_TABLE);
            let Answer::Accepted { table, finishing } = answer else { panic!("{text}") };
            let way = find(&table, &starts);
            assert_eq!(way.is_none(), finishing, "{text}");
            let Some(way) = way else { continue };
            assert!(holds(&table, &starts, &way), "{text}");
            no += 1;
            for other in changed(&way) {
                assert!(!holds(&table, &starts, &other), "{text}\n{other:?}");
                refused += 1;
            }
        }
        assert!(no > 400 && refused > 1_000, "{no} ways, {refused} changed ones");
    }
}
