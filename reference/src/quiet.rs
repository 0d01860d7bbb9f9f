//! The figure Q of a finishing program (A.11): the most instructions on a quiet path, by one search over the table's words.
//!
//! For a location the search finds each end that a quiet path from there can come to, with the most instructions up to it: the return of
//! its own rule with a value, or an end on the way. Behind a call the path goes on by each value that the called rule's paths return. What
//! was found is kept by location and known result.

use crate::processor::{self, Answer, Program};
use crate::side::{Processed, Reference};
use crate::verdict::finishing;
use std::collections::{BTreeMap, HashMap};
use std::rc::Rc;

/// The greatest figure; above it there is the number instead.
pub const GREATEST: u64 = 4_294_967_295;
pub const TOO_LONG: u64 = 47;

/// What a program has.
#[derive(Clone, Copy, PartialEq, Eq, Debug)]
pub enum Figure {
    /// It is not finishing.
    Neither,
    Most(u64),
    /// 47.
    TooLong,
}

/// A program's figure, over its own table.
pub fn figure(program: &Program) -> Figure {
    if !finishing(program) {
        return Figure::Neither;
    }
    let (table, starts) = processor::table(program);
    figure_over(&table, &starts)
}

/// The figure of a finishing program with this table and these rules' first locations.
fn figure_over(table: &[u16], starts: &[usize]) -> Figure {
    let most = Quiet::new(table, starts).most();
    match most.expect("the quiet paths of a finishing program end") {
        most if most <= GREATEST => Figure::Most(most),
        _ => Figure::TooLong,
    }
}

/// The way a path ends.
#[derive(Clone, Copy, PartialEq, Eq, PartialOrd, Ord, Debug)]
enum End {
    /// With an instruction that reads, repairs or stops.
    Over,
    /// With its rule's return, and the value that was set before.
    Return(Option<u16>),
}

/// The ends of the paths from a place, with the most instructions up to each.
type Ends = BTreeMap<End, u64>;

/// A location and the result, where it is known there.
type Place = (usize, Option<u16>);

/// The quiet paths of a table.
pub struct Quiet<'a> {
    table: &'a [u16],
    starts: &'a [usize],
    /// What was found; nothing yet for a place that is being searched.
    found: HashMap<Place, Option<Rc<Ends>>>,
}

impl<'a> Quiet<'a> {
    /// The table of an accepted program, with the locations of its rules' first words.
    pub fn new(table: &'a [u16], starts: &'a [usize]) -> Quiet<'a> {
        Quiet { table, starts, found: HashMap::new() }
    }

    /// The most instructions on a quiet path from any instruction that can be reached in its rule; none where a path has no end. Numbers
    /// stop at the greatest of 64 bits.
    pub fn most(&mut self) -> Option<u64> {
        let mut reached: Vec<usize> = self.starts.iter().flat_map(|start| reached(self.table, *start)).collect();
        // From the last one, so that few searches wait for each other.
        reached.sort_unstable();
        reached.into_iter().rev().try_fold(0, |most, at| Some(self.from(at)?.max(most)))
    }

    /// The most instructions on a quiet path that begins at a location.
    pub fn from(&mut self, at: usize) -> Option<u64> {
        self.ends((at, None))?.values().copied().max()
    }

    fn word(&self, at: usize) -> usize {
        usize::from(self.table[at - 1])
    }

    fn ends(&mut self, (at, result): Place) -> Option<Rc<Ends>> {
        // Return and choice alone look at the result.
        let place = (at, result.filter(|_| matches!(self.table[at - 1], 9 | 11)));
        if let Some(found) = self.found.get(&place) {
            return found.clone();
        }
        self.found.insert(place, None);
        let ends = Rc::new(self.search(place)?);
        self.found.insert(place, Some(ends.clone()));
        Some(ends)
    }

    fn search(&mut self, (at, result): Place) -> Option<Ends> {
        let mut ends = Ends::new();
        match self.table[at - 1] {
            3 | 4 | 12 => _ = ends.insert(End::Over, 1),
            9 => _ = ends.insert(End::Return(result), 1),
            8 => {
                // The stop with 64 pending is no longer than the way on.
                let called = self.ends((self.word(at + 1), None))?;
                for (end, count) in called.iter() {
                    match end {
                        End::Over => longer(&mut ends, End::Over, count.saturating_add(1)),
                        End::Return(value) => self.on(&mut ends, count.saturating_add(1), (at + 2, *value))?,
                    }
                }
            }
            10 => self.on(&mut ends, 1, (at + 2, Some(self.table[at])))?,
            7 => {
                let (labels, default) = choice(self.table, at);
                if !labels.is_empty() {
                    longer(&mut ends, End::Over, 1);
                }
                self.on(&mut ends, 1, (default, None))?;
            }
            11 => {
                let (labels, default) = choice(self.table, at);
                let ways: Vec<usize> = match result {
                    Some(value) => vec![labels.iter().find(|(label, _)| *label == value).map_or(default, |(_, to)| *to)],
                    None => labels.iter().map(|(_, to)| *to).chain([default]).collect(),
                };
                for to in ways {
                    self.on(&mut ends, 1, (to, None))?;
                }
            }
            _ => {
                for to in ways(self.table, at) {
                    self.on(&mut ends, 1, (to, None))?;
                }
            }
        }
        Some(ends)
    }

    /// Takes up the ends from a place that is come to with so many instructions done.
    fn on(&mut self, ends: &mut Ends, done: u64, place: Place) -> Option<()> {
        for (end, count) in self.ends(place)?.iter() {
            longer(ends, *end, count.saturating_add(done));
        }
        Some(())
    }
}

fn longer(ends: &mut Ends, end: End, count: u64) {
    let most = ends.entry(end).or_default();
    *most = count.max(*most);
}

/// The labels of the choice at a location with where they lead, and the default.
pub fn choice(table: &[u16], at: usize) -> (Vec<(u16, usize)>, usize) {
    let word = |at: usize| usize::from(table[at - 1]);
    let count = at + 1 + word(at + 1);
    let distances = (1..=word(count)).map(|i| count + 2 * i);
    let default = count + 2 * word(count) + 1;
    (distances.map(|distance| (table[distance - 2], distance - word(distance))).collect(), default)
}

/// Where a rule goes on behind the instruction at a location: every way, calls passed by.
fn ways(table: &[u16], at: usize) -> Vec<usize> {
    let distance = || usize::from(table[at]);
    match table[at - 1] {
        1 => vec![at + 1 + distance()],
        2 => vec![at + 1 - distance()],
        9 | 12 => vec![],
        7 | 11 => {
            let (labels, default) = choice(table, at);
            labels.into_iter().map(|(_, to)| to).chain([default]).collect()
        }
        4 | 256.. => vec![at + 1],
        _ => vec![at + 2],
    }
}

/// The locations that can be reached from a rule's start without entering calls.
pub fn reached(table: &[u16], start: usize) -> Vec<usize> {
    let mut seen = vec![false; table.len() + 1];
    seen[start] = true;
    let mut reached = vec![start];
    let mut next = 0;
    while let Some(at) = reached.get(next) {
        let ways = ways(table, *at);
        next += 1;
        reached.extend(ways.into_iter().filter(|to| !std::mem::replace(&mut seen[*to], true)));
    }
    reached
}

/// What `sst_process` answers, with the program's figure.
#[derive(Clone, Copy, PartialEq, Eq, Debug)]
pub struct Measured {
    pub processed: Processed,
    /// Q, or 0 where there is none.
    pub figure: u64,
    /// 0 or 47.
    pub figure_number: u64,
}

/// The entry `sst_process` with its figure.
pub trait Measurer {
    fn name(&self) -> &'static str;
    fn measure(&self, text: &[u8], table: &mut [u8]) -> Measured;
}

impl Measurer for Reference {
    fn name(&self) -> &'static str {
        "rust"
    }

    fn measure(&self, text: &[u8], table: &mut [u8]) -> Measured {
        let (answer, starts) = processor::process_with_starts(text, table.len() / 2);
        processor::lent(&answer, table);
        measured(&answer, &starts)
    }
}

/// An answer with the figure of its program, whose rules begin at these locations.
pub fn measured(answer: &Answer, starts: &[usize]) -> Measured {
    let found = match answer {
        Answer::Accepted { table, finishing: true } => figure_over(table, starts),
        _ => Figure::Neither,
    };
    let (figure, figure_number) = match found {
        Figure::Neither => (0, 0),
        Figure::Most(most) => (most, 0),
        Figure::TooLong => (0, TOO_LONG),
    };
    Measured { processed: Processed::of(answer), figure, figure_number }
}

#[cfg(test)]
mod tests {
    use super::*;
    use crate::choosers;
    use crate::files;
    use crate::processor::{listing, resolve, table};
    use crate::texts::{self, Seed};
    use std::collections::BTreeSet;

    fn figure_of(text: &str) -> Figure {
        figure(&resolve(text.as_bytes()).expect("a good text"))
    }

    #[test]
    fn cases_of_the_papers() {
        assert_eq!(figure_of("rules M: ; end"), Figure::Most(1));
        let p2 = "input: a b blank illegalChar; error: badChar = 10; rules S: {[ | blank: | illegalChar: #badChar | *: > ]}; end";
        assert_eq!(figure_of(p2), Figure::Most(6));
        assert_eq!(figure_of("rules M: { } ; end"), Figure::Neither);
        assert_eq!(figure_of("rules M: { > } ; end"), Figure::Most(2));
        assert_eq!(figure_of("input: a; rules M: a; end"), Figure::Most(1));
        assert_eq!(figure_of("input: a b; rules M: [ | b: ]; end"), Figure::Most(3));
        assert_eq!(figure_of("rules M: @M; end"), Figure::Neither);
        let a3 = "input: item; type Boolean: true false; rules M: {[@OptionalItem | true: | false: > ]};
            OptionalItem >> Boolean: [ | item: >> true | *: >> false ]; end";
        assert_eq!(figure_of(a3), Figure::Most(10));
    }

    #[test]
    fn by_hand() {
        let with = |rules: &str| {
            figure_of(&format!("input: a b; output: o; type t: v w; mechanism m: u c >> t d(t) >> t; rules {rules} end"))
        };
        // Call, the called rule up to its return, return; and the called rule's path that is over inside.
        assert_eq!(with("M: @N; N: u u;"), Figure::Most(5));
        assert_eq!(with("M: u @N; N: u u a;"), Figure::Most(5));
        // A rule that is never called counts; what stands behind `>>` does not.
        assert_eq!(with("M: ; N: u u u;"), Figure::Most(4));
        assert_eq!(with("M: >> .o u u;"), Figure::Most(1));
        assert_eq!(with("M: { ? >> .o u u };"), Figure::Most(1));
        // Behind a rule that never returns.
        assert_eq!(with("M: @N u u u; N: { ? };"), Figure::Most(4));
        // From the place behind a read, round a cycle, up to the next read.
        assert_eq!(with("M: { u ? u u };"), Figure::Most(5));
        // The default words: operation, choice, endChoice; inputChoice, input.
        assert_eq!(with("M: [c | v: >> ];"), Figure::Most(3));
        assert_eq!(with("M: [d(v) | v: >> ];"), Figure::Most(4));
        assert_eq!(with("M: u [ | a: >> ];"), Figure::Most(3));
        // A choice by an operation: a label, the jump to its end, return.
        assert_eq!(with("M: [c | v: ];"), Figure::Most(4));
        // A rule choice begun at itself takes any way; met later it goes by the value: call, setResult, return, choice, endChoice.
        assert_eq!(with("M: [@N | v: u u u u >> ]; N >> t: >> w;"), Figure::Most(6));
        assert_eq!(with("M: [@N | v: u >> ]; N >> t: >> w;"), Figure::Most(5));
        assert_eq!(with("M: [@N | v: u >> ]; N >> t: u >> v;"), Figure::Most(7));
        // The long path to one value does not lead to the long way of another.
        assert_eq!(with("M: [@N | v: u u u >> | w: >> ]; N >> t: [c | v: >> v | *: u u u >> w ];"), Figure::Most(10));
    }

    #[test]
    fn the_greatest() {
        // So many rules, each calling the next twice, and so many updates before: 2^(rules - 1) * 4 - 3 and the updates.
        let doubling = |rules: usize, updates: usize| {
            let calls = |i: usize| if i + 1 < rules { format!("@r{} @r{}", i + 1, i + 1) } else { String::new() };
            let rules: String = (0..rules)
                .map(|i| format!("r{i}: {}{}; ", calls(i), if i == 0 { " u".repeat(updates) } else { String::new() }))
                .collect();
            format!("mechanism m: u; rules {rules} end")
        };
        assert_eq!(figure_of(&doubling(3, 0)), Figure::Most(13));
        assert_eq!(figure_of(&doubling(31, 1)), Figure::Most(GREATEST - 1));
        assert_eq!(figure_of(&doubling(31, 2)), Figure::Most(GREATEST));
        assert_eq!(figure_of(&doubling(31, 3)), Figure::TooLong);
        assert_eq!(figure_of(&doubling(128, 0)), Figure::TooLong);
        // 47 refuses nothing, and the lister's second line is absent.
        let second = |text: &str| listing(text.as_bytes()).lines().nth(1).map(str::to_string);
        assert_eq!(second(&doubling(31, 2)).as_deref(), Some("4294967295"));
        assert_eq!(second(&doubling(31, 3)).as_deref(), Some("1 8"));
        assert!(listing(doubling(31, 3).as_bytes()).starts_with("table 154 finishing yes\n1 8\n"));
        assert_eq!(listing(b"rules M: { } ; end"), "table 3 finishing no\n1 2\n2 1\n3 9\n");
        let mut bytes = [0xEE; 400];
        let Measured { processed, figure, figure_number } = Reference.measure(doubling(31, 3).as_bytes(), &mut bytes);
        assert_eq!((processed.number, processed.words, processed.finishing, figure, figure_number), (0, 154, 1, 0, 47));
    }

    #[test]
    fn reached_as_by_the_loader() {
        for number in 0..300 {
            let mut seed = Seed::new(number);
            let (table, _) = table(&choosers::program(&mut seed));
            let by_loader = files::reached(&table).expect("a table that is taken");
            // From the first rule on, and from each that is called at a location that was reached.
            let (mut rules, mut here) = (vec![1], BTreeSet::new());
            while let Some(start) = rules.pop() {
                if !here.contains(&start) {
                    let own = reached(&table, start);
                    rules.extend(own.iter().filter(|at| table[**at - 1] == 8).map(|at| usize::from(table[*at])));
                    here.extend(own);
                }
            }
            assert!((1..=table.len()).all(|at| by_loader.has(at) == here.contains(&at)), "seed {number}");
        }
    }

    /// The definition as it is, or misread.
    #[derive(Clone, Copy, PartialEq, Debug)]
    enum Reading {
        Right,
        /// A path begins only at a rule's start.
        FromStarts,
        /// One begun at a choice takes the default alone.
        BegunByDefault,
        /// A rule choice takes any way.
        AnyWay,
        /// A call counts as one instruction.
        CallsAsOne,
        /// A path over inside a called rule does not count.
        BackOnly,
        /// The instruction that reads or stops does not count.
        LastLeftOut,
        /// An input choice ends a path, whatever it takes.
        InputChoiceEnds,
        /// Rules from the first one's calls alone.
        FirstRule,
    }

    const MISREADINGS: [Reading; 8] = [
        Reading::FromStarts,
        Reading::BegunByDefault,
        Reading::AnyWay,
        Reading::CallsAsOne,
        Reading::BackOnly,
        Reading::LastLeftOut,
        Reading::InputChoiceEnds,
        Reading::FirstRule,
    ];

    /// The definition, path by path: each is gone by itself, with its pending returns, until it ends.
    struct Each<'a> {
        table: &'a [u16],
        reading: Reading,
        pending: Vec<usize>,
        /// The steps that may still be done.
        left: u32,
    }

    impl Each<'_> {
        /// The most instructions from a place; none where no path counts, or none is left.
        fn most(&mut self, at: usize, result: Option<u16>, begun: bool) -> Option<u64> {
            self.left = self.left.checked_sub(1)?;
            let last = if self.pending.is_empty() || self.reading != Reading::BackOnly {
                Some(u64::from(self.reading != Reading::LastLeftOut))
            } else {
                None
            };
            let next: Vec<(usize, Option<u16>)> = match self.table[at - 1] {
                3 | 4 | 12 => return last,
                7 if self.reading == Reading::InputChoiceEnds => return last,
                7 => vec![(choice(self.table, at).1, None)],
                10 => vec![(at + 2, Some(self.table[at]))],
                8 if self.reading == Reading::CallsAsOne => vec![(at + 2, None)],
                8 => {
                    self.pending.push(at + 2);
                    let rest = self.most(usize::from(self.table[at]), None, false);
                    self.pending.pop();
                    return rest.map(|rest| rest + 1);
                }
                9 => {
                    let Some(back) = self.pending.pop() else { return Some(1) };
                    let rest = self.most(back, result, false);
                    self.pending.push(back);
                    return rest.map(|rest| rest + 1);
                }
                11 => {
                    let (labels, default) = choice(self.table, at);
                    let known = result.filter(|_| self.reading != Reading::AnyWay);
                    let ways = match known {
                        None if begun && self.reading == Reading::BegunByDefault => vec![default],
                        None => labels.iter().map(|(_, to)| *to).chain([default]).collect(),
                        Some(value) => vec![labels.iter().find(|(label, _)| *label == value).map_or(default, |(_, to)| *to)],
                    };
                    ways.into_iter().map(|to| (to, None)).collect()
                }
                _ => ways(self.table, at).into_iter().map(|to| (to, None)).collect(),
            };
            next.into_iter().filter_map(|(to, result)| self.most(to, result, false)).max().map(|rest| rest + 1)
        }
    }

    const STEPS: u32 = 6_000;
    /// The bytes of stack for as many steps in each other.
    const STACK: usize = 64 << 20;

    /// The figure by the definition, if it is found in so many steps.
    fn by_definition(table: &[u16], starts: &[usize], reading: Reading) -> Option<u64> {
        let rules = if reading == Reading::FirstRule { &starts[..1] } else { starts };
        let begins =
            rules.iter().flat_map(|start| if reading == Reading::FromStarts { vec![*start] } else { reached(table, *start) });
        let mut each = Each { table, reading, pending: Vec::new(), left: STEPS };
        let most = begins.filter_map(|at| each.most(at, None, true)).max();
        most.filter(|_| each.left > 0)
    }

    #[test]
    fn path_by_path() {
        let thread = std::thread::Builder::new().stack_size(STACK).spawn(compare_paths);
        thread.expect("a thread").join().expect("all alike");
    }

    fn compare_paths() {
        let mut told = [0; MISREADINGS.len()];
        let (mut same, mut over) = (0, 0);
        for number in 0..1_600 {
            let mut seed = Seed::new(number);
            let program = if number % 2 == 0 {
                choosers::program(&mut seed)
            } else {
                let size = 5 + seed.below(40);
                let words = texts::good(&mut seed, size);
                resolve(&texts::join(&mut seed, &words)).expect("a good program")
            };
            let Figure::Most(most) = figure(&program) else { continue };
            let (table, starts) = table(&program);
            match by_definition(&table, &starts, Reading::Right) {
                Some(by_definition) => assert_eq!(most, by_definition, "seed {number}"),
                None => {
                    over += 1;
                    continue;
                }
            }
            same += 1;
            for (reading, told) in MISREADINGS.into_iter().zip(&mut told) {
                *told += usize::from(by_definition(&table, &starts, reading).is_some_and(|other| other != most));
            }
        }
        assert!(same > 500 && over < 60, "{same} alike, {over} too large");
        assert!(told.iter().all(|told| *told > 10), "a misreading is not told: {told:?}");
    }
}
