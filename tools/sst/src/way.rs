//! A way on which a program goes on for ever without reading: found over the table's words.
//!
//! Quiet paths pass called rules by the values that those return quietly. Such a value is found by a path that uses only values found
//! before it, so that every one has a path of its own in the end.

use reference::quiet::choice;
use std::collections::{BTreeMap, HashMap, VecDeque};

/// What a rule returns: nothing, or a value.
pub type Value = Option<u16>;
/// A rule, by the location of its first word, and what it returns on a quiet path.
pub type Fact = (usize, Value);

/// From an instruction to the next on a quiet path; past a call, with what the called rule returns.
#[derive(Clone, Copy, PartialEq, Eq, Debug)]
pub struct Hop {
    pub from: usize,
    pub to: usize,
    pub through: Option<Fact>,
}

/// A quiet path from a location to the last one on it.
#[derive(Clone, PartialEq, Eq, Debug)]
pub struct Path {
    pub from: usize,
    pub hops: Vec<Hop>,
}

impl Path {
    pub fn end(&self) -> usize {
        self.hops.last().map_or(self.from, |hop| hop.to)
    }
}

#[derive(Clone, PartialEq, Eq, Debug)]
pub enum Round {
    /// From a cycle's start to the jump at its end.
    Cycle(Path),
    /// From each rule's start to its call of the next one; the last calls the first.
    Calls(Vec<Path>),
}

/// The way round, and the paths of what called rules return on it, each behind those that it uses.
#[derive(Clone, PartialEq, Eq, Debug)]
pub struct Way {
    pub round: Round,
    pub facts: Vec<(Fact, Path)>,
}

struct Finder<'a> {
    table: &'a [u16],
    starts: &'a [usize],
    facts: Vec<(Fact, Path)>,
    /// What is known of each rule, by its start.
    known: BTreeMap<usize, Vec<Value>>,
}

/// The way round of a program that is not finishing.
pub fn find(table: &[u16], starts: &[usize]) -> Option<Way> {
    let mut finder = Finder { table, starts, facts: Vec::new(), known: BTreeMap::new() };
    finder.returned();
    let round = finder.cycle().map(Round::Cycle).or_else(|| finder.calls().map(Round::Calls))?;
    Some(Way { round, facts: finder.facts })
}

impl Finder<'_> {
    fn word(&self, at: usize) -> usize {
        usize::from(self.table[at - 1])
    }

    /// Finds all that rules return quietly, round by round.
    fn returned(&mut self) {
        loop {
            let mut found = Vec::new();
            for start in self.starts {
                let came = self.search(*start);
                let known = self.known.get(start);
                let mut own: Vec<(Value, usize)> =
                    came.keys().filter_map(|at| self.back(*at).map(|value| (value, *at))).collect();
                own.sort_unstable();
                own.dedup_by_key(|(value, _)| *value);
                own.retain(|(value, _)| known.is_none_or(|known| !known.contains(value)));
                found.extend(own.into_iter().map(|(value, at)| ((*start, value), path(&came, *start, at))));
            }
            if found.is_empty() {
                return;
            }
            for ((start, value), _) in &found {
                self.known.entry(*start).or_default().push(*value);
            }
            self.facts.extend(found);
        }
    }

    /// What is returned at a location.
    fn back(&self, at: usize) -> Option<Value> {
        match self.word(at) {
            9 => Some(None),
            10 => Some(Some(self.table[at])),
            _ => None,
        }
    }

    /// All locations on quiet paths from one, each with the hop that came to it first.
    fn search(&self, start: usize) -> HashMap<usize, Option<Hop>> {
        let mut came = HashMap::from([(start, None)]);
        let mut open = VecDeque::from([start]);
        while let Some(from) = open.pop_front() {
            for (to, through) in self.ways(from) {
                if !came.contains_key(&to) {
                    came.insert(to, Some(Hop { from, to, through }));
                    open.push_back(to);
                }
            }
        }
        came
    }

    fn ways(&self, at: usize) -> Vec<(usize, Option<Fact>)> {
        let plain = |to: usize| vec![(to, None)];
        match self.word(at) {
            1 => plain(at + 1 + self.word(at + 1)),
            2 => plain(at + 1 - self.word(at + 1)),
            5 | 6 | 13 => plain(at + 2),
            7 => plain(choice(self.table, at).1),
            8 => self.past(at),
            11 => {
                let (labels, default) = choice(self.table, at);
                labels.iter().map(|(_, to)| (*to, None)).chain([(default, None)]).collect()
            }
            256.. => plain(at + 1),
            _ => Vec::new(),
        }
    }

    /// Past a call, to what stands behind it or to the alternative of the value.
    fn past(&self, at: usize) -> Vec<(usize, Option<Fact>)> {
        let called = self.word(at + 1);
        let values = self.known.get(&called).map_or(&[][..], Vec::as_slice);
        let to = |value: Value| match value {
            None => at + 2,
            Some(value) => {
                let (labels, default) = choice(self.table, at + 2);
                labels.iter().find(|(label, _)| *label == value).map_or(default, |(_, to)| *to)
            }
        };
        values.iter().map(|value| (to(*value), Some((called, *value)))).collect()
    }

    /// The shortest quiet path from a cycle's start to its end, over all cycles.
    fn cycle(&self) -> Option<Path> {
        let jumps = instructions(self.table).into_iter().filter(|at| self.word(*at) == 2);
        let paths = jumps.filter_map(|end| {
            let start = end + 1 - self.word(end + 1);
            let came = self.search(start);
            came.contains_key(&end).then(|| path(&came, start, end))
        });
        paths.min_by_key(|path| path.hops.len())
    }

    /// The shortest way from a rule to a call of itself, from call to call.
    fn calls(&self) -> Option<Vec<Path>> {
        let calls: BTreeMap<usize, Vec<(usize, Path)>> =
            self.starts.iter().map(|start| (*start, self.calls_of(*start))).collect();
        self.starts.iter().filter_map(|start| ring(&calls, *start)).min_by_key(Vec::len)
    }

    /// The rules that a rule quietly comes to a call of, with the path to the call.
    fn calls_of(&self, start: usize) -> Vec<(usize, Path)> {
        let came = self.search(start);
        let mut at: Vec<usize> = came.keys().copied().filter(|at| self.word(*at) == 8).collect();
        at.sort_unstable();
        at.into_iter().map(|at| (self.word(at + 1), path(&came, start, at))).collect()
    }
}

/// The shortest ring of calls through a rule.
fn ring(calls: &BTreeMap<usize, Vec<(usize, Path)>>, start: usize) -> Option<Vec<Path>> {
    let mut came: HashMap<usize, (usize, &Path)> = HashMap::new();
    let mut open = VecDeque::from([start]);
    while let Some(rule) = open.pop_front() {
        for (called, path) in calls.get(&rule)? {
            if !came.contains_key(called) {
                came.insert(*called, (rule, path));
                open.push_back(*called);
            }
        }
    }
    let mut ring = Vec::new();
    let mut at = start;
    loop {
        let (rule, path) = came.get(&at)?;
        ring.push((*path).clone());
        at = *rule;
        if at == start {
            ring.reverse();
            return Some(ring);
        }
    }
}

fn path(came: &HashMap<usize, Option<Hop>>, from: usize, end: usize) -> Path {
    let mut hops = Vec::new();
    let mut at = end;
    while let Some(Some(hop)) = came.get(&at) {
        hops.push(*hop);
        at = hop.from;
    }
    hops.reverse();
    Path { from, hops }
}

/// The locations at which an instruction begins.
fn instructions(table: &[u16]) -> Vec<usize> {
    let mut labels = std::collections::HashSet::new();
    let mut out = Vec::new();
    let mut at = 1;
    while at <= table.len() {
        let word = table[at - 1];
        if labels.contains(&at) {
            at += 1 + 2 * usize::from(word);
            continue;
        }
        if matches!(word, 7 | 11) {
            labels.insert(at + 1 + usize::from(table[at]));
        }
        out.push(at);
        at += if matches!(word, 4 | 9 | 12 | 256..) { 1 } else { 2 };
    }
    out
}
