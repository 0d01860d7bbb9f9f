//! The verdict: whether a program is finishing, by one search over places and returned values.
//!
//! A quiet path through a rule choice takes only the alternative of a value that its rule can return quietly. The search begins at every
//! rule's start. A call that it comes to waits at the called rule; a return that it comes to sends all that wait there on with its value,
//! now and later. So a value is known only by a path that returns it, also where rules call each other in a ring.

use crate::processor::{Act, By, Choice, Program};
use std::collections::HashSet;

type Place = usize;
/// What a rule returns: nothing, or a value.
type Value = Option<u16>;

/// How a quiet path goes on from a place.
enum Step {
    /// A token is read, or the walk stops: it does not.
    Ends,
    To(Vec<Place>),
    Back(Value),
    Call(usize, Then),
}

/// How it goes on behind a call.
enum Then {
    Past(Place),
    By(Vec<(u16, Place)>, Option<Place>),
}

impl Then {
    fn with(&self, value: Value) -> Option<Place> {
        match self {
            Then::Past(next) => Some(*next),
            Then::By(labels, otherwise) => {
                let value = value?;
                labels.iter().find(|(label, _)| *label == value).map(|(_, place)| *place).or(*otherwise)
            }
        }
    }
}

/// The places of a program, laid out from the end of each list to its start.
#[derive(Default)]
struct Places {
    steps: Vec<Step>,
    /// The rule that each place is in.
    rules: Vec<usize>,
    /// Start and end of each cycle.
    cycles: Vec<(Place, Place)>,
    rule: usize,
}

impl Places {
    fn place(&mut self, step: Step) -> Place {
        self.steps.push(step);
        self.rules.push(self.rule);
        self.steps.len() - 1
    }

    /// A list in front of the place `next`; `out` is where `>` goes.
    fn list(&mut self, acts: &[Act], next: Place, out: Option<Place>) -> Place {
        acts.iter().rev().fold(next, |next, act| self.act(act, next, out))
    }

    fn act(&mut self, act: &Act, next: Place, out: Option<Place>) -> Place {
        let step = match act {
            Act::Match(_) | Act::Any => Step::Ends,
            Act::Emit(_) | Act::Signal(_) | Act::Update(..) => Step::To(vec![next]),
            Act::Exit => Step::To(out.into_iter().collect()),
            Act::Return(value) => Step::Back(*value),
            Act::Call(rule) => Step::Call(*rule, Then::Past(next)),
            Act::Choice(choice) => self.choice(choice, next, out),
            Act::Cycle(acts) => {
                let end = self.place(Step::Ends);
                let start = self.list(acts, end, Some(next));
                self.steps[end] = Step::To(vec![start]);
                self.cycles.push((start, end));
                return start;
            }
        };
        self.place(step)
    }

    fn choice(&mut self, choice: &Choice, next: Place, out: Option<Place>) -> Step {
        let Choice { by, alternatives, otherwise } = choice;
        let starts: Vec<Place> = alternatives.iter().map(|(_, acts)| self.list(acts, next, out)).collect();
        let otherwise = otherwise.as_ref().map(|acts| self.list(acts, next, out));
        match by {
            By::Token => Step::To(otherwise.into_iter().collect()),
            By::Operation(..) => Step::To(starts.into_iter().chain(otherwise).collect()),
            By::Rule(rule) => {
                let labelled = alternatives.iter().zip(starts);
                let labels = labelled.flat_map(|((labels, _), start)| labels.iter().map(move |label| (*label, start)));
                Step::Call(*rule, Then::By(labels.collect(), otherwise))
            }
        }
    }
}

struct Search<'a> {
    places: &'a Places,
    seen: Vec<bool>,
    open: Vec<Place>,
    /// What each rule has been found to return quietly.
    returned: Vec<HashSet<Value>>,
    /// The calls of each rule that have been come to.
    waiting: Vec<Vec<Place>>,
}

impl Search<'_> {
    fn go(&mut self, place: Option<Place>) {
        if let Some(place) = place
            && !std::mem::replace(&mut self.seen[place], true)
        {
            self.open.push(place);
        }
    }

    fn all(&mut self) {
        let places = self.places;
        while let Some(place) = self.open.pop() {
            match &places.steps[place] {
                Step::Ends => {}
                Step::To(next) => next.iter().for_each(|next| self.go(Some(*next))),
                Step::Back(value) => {
                    let rule = places.rules[place];
                    if self.returned[rule].insert(*value) {
                        for call in self.waiting[rule].clone() {
                            self.behind(call, *value);
                        }
                    }
                }
                Step::Call(rule, _) => {
                    self.waiting[*rule].push(place);
                    for value in self.returned[*rule].clone() {
                        self.behind(place, value);
                    }
                }
            }
        }
    }

    fn behind(&mut self, call: Place, value: Value) {
        if let Step::Call(_, then) = &self.places.steps[call] {
            self.go(then.with(value));
        }
    }

    /// All ways from each place, also from places that have not been come to.
    fn ways(&self) -> Vec<Vec<Place>> {
        let ways = self.places.steps.iter().map(|step| match step {
            Step::Ends | Step::Back(_) => Vec::new(),
            Step::To(next) => next.clone(),
            Step::Call(rule, then) => {
                let next: HashSet<Place> = self.returned[*rule].iter().filter_map(|value| then.with(*value)).collect();
                next.into_iter().collect()
            }
        });
        ways.collect()
    }
}

fn leads(ways: &[Vec<Place>], from: Place, to: Place) -> bool {
    let mut seen = HashSet::from([from]);
    let mut open = vec![from];
    while let Some(place) = open.pop() {
        if place == to {
            return true;
        }
        open.extend(ways[place].iter().filter(|next| seen.insert(**next)));
    }
    false
}

/// Whether no cycle has a quiet path from its start to its end and no rule quietly comes to a call of itself.
pub fn finishing(program: &Program) -> bool {
    let mut places = Places::default();
    let mut starts = Vec::new();
    for (rule, body) in program.rules.iter().enumerate() {
        places.rule = rule;
        let end = places.place(Step::Back(None));
        starts.push(places.list(&body.acts, end, None));
    }
    let (count, rules) = (places.steps.len(), program.rules.len());
    let mut search = Search {
        places: &places,
        seen: vec![false; count],
        open: Vec::new(),
        returned: vec![HashSet::new(); rules],
        waiting: vec![Vec::new(); rules],
    };
    starts.into_iter().for_each(|start| search.go(Some(start)));
    search.all();
    let ways = search.ways();
    if places.cycles.iter().any(|(start, end)| leads(&ways, *start, *end)) {
        return false;
    }
    // A bit for each rule that a rule comes to a call of, directly and then through others.
    let mut comes = vec![0u128; rules];
    for (called, waiting) in search.waiting.iter().enumerate() {
        waiting.iter().for_each(|call| comes[places.rules[*call]] |= 1 << called);
    }
    for through in 0..rules {
        let further = comes[through];
        comes.iter_mut().filter(|comes| **comes >> through & 1 == 1).for_each(|comes| *comes |= further);
    }
    !comes.iter().enumerate().any(|(rule, comes)| comes >> rule & 1 == 1)
}

#[cfg(test)]
mod tests {
    use super::*;
    use crate::before;
    use crate::choosers;
    use crate::processor::resolve;
    use crate::texts::Seed;
    use std::collections::BTreeSet;

    /// Where a quiet path through actions can come to.
    #[derive(Clone, Copy, PartialEq, Eq, PartialOrd, Ord)]
    enum Goal {
        Past,
        Out,
        Back(Value),
        Call(usize),
    }

    type Goals = BTreeSet<Goal>;

    /// The definition as it is, or misread.
    #[derive(Clone, Copy, PartialEq, Debug)]
    enum Reading {
        Right,
        /// Any alternative of a rule that can return quietly.
        AnyAlternative,
        /// Otherwise for any value.
        AnyOtherwise,
        /// Otherwise for none.
        NoOtherwise,
        /// Past a choice without otherwise whose labels do not name the value.
        UnnamedPast,
        /// The largest sets of values that bear themselves, not the least. No verdict changes by it: values that bear themselves want a rule
        /// that quietly comes to a call of itself.
        Largest,
        /// A rule choice's own call counts for nothing.
        NoCall,
        /// Cycles in alternatives that no value opens count for nothing.
        OpenCycles,
    }

    const MISREADINGS: [Reading; 6] = [
        Reading::AnyAlternative,
        Reading::AnyOtherwise,
        Reading::NoOtherwise,
        Reading::UnnamedPast,
        Reading::NoCall,
        Reading::OpenCycles,
    ];

    /// The definition, word for word, where each rule returns quietly what is said.
    struct Quiet(Vec<BTreeSet<Value>>, Reading);

    impl Quiet {
        fn list(&self, acts: &[Act]) -> Goals {
            let mut goals = Goals::from([Goal::Past]);
            for act in acts {
                if goals.remove(&Goal::Past) {
                    goals.extend(self.act(act));
                }
            }
            goals
        }

        fn act(&self, act: &Act) -> Goals {
            match act {
                Act::Match(_) | Act::Any => Goals::new(),
                Act::Emit(_) | Act::Signal(_) | Act::Update(..) => Goals::from([Goal::Past]),
                Act::Exit => Goals::from([Goal::Out]),
                Act::Return(value) => Goals::from([Goal::Back(*value)]),
                Act::Call(rule) => {
                    let past = (!self.0[*rule].is_empty()).then_some(Goal::Past);
                    past.into_iter().chain([Goal::Call(*rule)]).collect()
                }
                Act::Cycle(acts) => {
                    let mut goals = self.list(acts);
                    goals.remove(&Goal::Past);
                    if goals.remove(&Goal::Out) {
                        goals.insert(Goal::Past);
                    }
                    goals
                }
                Act::Choice(choice) => self.choice(choice),
            }
        }

        fn choice(&self, choice: &Choice) -> Goals {
            let Choice { by, alternatives, otherwise } = choice;
            let other = otherwise.as_ref().map(|acts| self.list(acts)).unwrap_or_default();
            match by {
                By::Token => other,
                By::Operation(..) => alternatives.iter().flat_map(|(_, acts)| self.list(acts)).chain(other).collect(),
                By::Rule(rule) => {
                    let call = (self.1 != Reading::NoCall).then_some(Goal::Call(*rule));
                    let open = self.open(*rule, choice).into_iter().flat_map(|acts| self.list(acts));
                    let unnamed = |value: &u16| !alternatives.iter().any(|(labels, _)| labels.contains(value));
                    let stops = otherwise.is_none() && self.0[*rule].iter().flatten().any(unnamed);
                    let past = (stops && self.1 == Reading::UnnamedPast).then_some(Goal::Past);
                    open.chain(call).chain(past).collect()
                }
            }
        }

        /// The alternatives of a rule choice that a value opens.
        fn open<'a>(&self, rule: usize, choice: &'a Choice) -> Vec<&'a Vec<Act>> {
            let Choice { alternatives, otherwise, .. } = choice;
            let values = &self.0[rule];
            let named = |labels: &Vec<u16>| values.iter().flatten().any(|value| labels.contains(value));
            let unnamed = |value: &u16| !alternatives.iter().any(|(labels, _)| labels.contains(value));
            let any = self.1 == Reading::AnyAlternative && !values.is_empty();
            let labelled = alternatives.iter().filter(|(labels, _)| any || named(labels)).map(|(_, acts)| acts);
            let other = match self.1 {
                Reading::AnyAlternative | Reading::AnyOtherwise => !values.is_empty(),
                Reading::NoOtherwise => false,
                _ => values.iter().flatten().any(unnamed),
            };
            labelled.chain(otherwise.iter().filter(|_| other)).collect()
        }

        fn no_cycle_goes_round(&self, acts: &[Act]) -> bool {
            acts.iter().all(|act| match act {
                Act::Cycle(acts) => !self.list(acts).contains(&Goal::Past) && self.no_cycle_goes_round(acts),
                Act::Choice(choice) => {
                    let Choice { by, alternatives, otherwise } = choice;
                    let lists: Vec<&Vec<Act>> = match by {
                        By::Rule(rule) if self.1 == Reading::OpenCycles => self.open(*rule, choice),
                        _ => alternatives.iter().map(|(_, acts)| acts).chain(otherwise).collect(),
                    };
                    lists.into_iter().all(|acts| self.no_cycle_goes_round(acts))
                }
                _ => true,
            })
        }
    }

    /// The verdict by the definition: calls in each other up to the depth at which no deeper ones return more.
    fn by_definition(program: &Program, reading: Reading) -> bool {
        let first = if reading == Reading::Largest { choosers::VALUES.map(Some).into() } else { BTreeSet::new() };
        let mut quiet = Quiet(vec![first; program.rules.len()], reading);
        let goals = loop {
            let goals: Vec<Goals> = program
                .rules
                .iter()
                .map(|rule| {
                    let goals = quiet.list(&rule.acts);
                    goals.into_iter().map(|goal| if goal == Goal::Past { Goal::Back(None) } else { goal }).collect()
                })
                .collect();
            let values = |goals: &Goals| {
                let values = goals.iter().filter_map(|goal| if let Goal::Back(value) = goal { Some(*value) } else { None });
                values.collect::<BTreeSet<Value>>()
            };
            let deeper: Vec<BTreeSet<Value>> = goals.iter().map(values).collect();
            if deeper == quiet.0 {
                break goals;
            }
            quiet.0 = deeper;
        };
        // So many steps from call to call as there are rules.
        let called =
            |rule: usize| goals[rule].iter().filter_map(|goal| if let Goal::Call(rule) = goal { Some(*rule) } else { None });
        let comes_back = |rule: usize| {
            let mut come_to: BTreeSet<usize> = called(rule).collect();
            for _ in 0..program.rules.len() {
                come_to = come_to.iter().flat_map(|rule| called(*rule)).chain(come_to.iter().copied()).collect();
            }
            come_to.contains(&rule)
        };
        program.rules.iter().all(|rule| quiet.no_cycle_goes_round(&rule.acts)) && !(0..program.rules.len()).any(comes_back)
    }

    #[track_caller]
    fn is(rules: &str, before: bool, now: bool) {
        let text = format!("input: t; type b: x y z; mechanism m: c>>b; rules {rules} end");
        let program = resolve(text.as_bytes()).expect("accepted");
        assert_eq!(before::finishing(&program), before, "{rules}, before");
        assert_eq!(finishing(&program), now, "{rules}");
        assert_eq!(by_definition(&program, Reading::Right), now, "{rules}, by the definition");
    }

    #[test]
    fn the_requests_example() {
        is("M: {[@O | x: | y: > ]}; O >> b: [ | t: >> x | *: >> y ];", false, true);
        is("M: {[@O | x: | y: > ]}; O >> b: [ | t: >> y | *: >> x ];", false, false);
    }

    #[test]
    fn readings() {
        // Otherwise by one value and by both.
        is("M: {[@O | x: > | *: ]}; O >> b: [ | t: >> x | *: >> z ];", false, false);
        is("M: {[@O | x: > | *: ]}; O >> b: [ | t: >> z | *: >> x ];", false, true);
        is("M: {[@O | x: > | *: ]}; O >> b: [c | x: >> z | *: >> x ];", false, false);
        is("M: {[@O | x: | *: > ]}; O >> b: [c | x: >> z | *: >> x ];", false, false);
        is("M: {[@O | x, z: | *: > ]}; O >> b: [ | t: >> x | *: >> y ];", false, true);
        // No label names the value, and there is no otherwise.
        is("M: {[@O | y: | x: > ]}; O >> b: >> z;", false, true);
        // A rule that cannot return quietly opens nothing.
        is("M: {[@O | x: | *: ]}; O >> b: ? >> x;", true, true);
        is("M: {[@O | x: | *: ]}; O >> b: { };", false, false);
        // The rule is called before its value is known; what an alternative calls counts if its value is returned.
        is("M: [@O | y: @M | x: ]; O >> b: [ | t: >> y | *: >> x ];", false, true);
        is("M: [@O | y: @M | x: ]; O >> b: [ | t: >> x | *: >> y ];", false, false);
        is("M: ; O >> b: [@O | x: >> x ];", false, false);
        // A cycle counts wherever it stands.
        is("M: [@O | y: { } | x: ]; O >> b: >> x;", false, false);
        is("M: ; N: { };", false, false);
        // Choices by an operation take any alternative.
        is("M: {[c | x: | y: > ]};", false, false);
    }

    #[test]
    fn values_come_from_somewhere() {
        // Each would return x by the other's x alone.
        is(
            "M: {[@P | x: | *: > ]}; P >> b: [ | t: ? >> y | *: [@Q | x: >> x ]]; Q >> b: [ | t: ? >> y | *: [@P | x: >> x ]];",
            false,
            false,
        );
        is("M: {[@P | x: ]}; P >> b: ? [@Q | x: >> x | y: >> y ]; Q >> b: [@P | x: >> x ];", true, true);
        // With one x to begin with they do.
        is("M: {[@P | y: > | *: ]}; P >> b: [c | x: >> y | *: [@Q | *: >> x ]]; Q >> b: >> z;", false, false);
        is("M: {[@P | y: > | *: ]}; P >> b: [c | x: >> y | *: [@Q | y: >> x ]]; Q >> b: >> z;", false, true);
    }

    #[test]
    fn chains_of_values() {
        // R returns x, by that y, by that z; the choices stand in backward order.
        let chain = "R >> b: [c | x: >> x | *: ] [@R | y: >> z | *: ] [@R | x: >> y | *: ] ? >> x;";
        is(&format!("M: ? {{[@R | z: | *: > ]}}; {chain}"), false, false);
        // P goes round where the value z of Q comes through, and Q calls nothing but itself after reading.
        is(
            "M: {[@P | z: | *: > ]}; P >> b: [@Q | x: >> y | y: >> x | z: >> z]; Q >> b: [@S | x: >> z | *: >> y]; S >> b: >> x;",
            false,
            false,
        );
        is(
            "M: {[@P | z: | *: > ]}; P >> b: [@Q | x: >> y | y: >> x | z: >> z]; Q >> b: [@S | x: >> y | *: >> z]; S >> b: >> x;",
            false,
            true,
        );
    }

    #[test]
    fn it_is_the_definition() {
        let (mut yes, mut no, mut wider) = (0, 0, 0);
        let mut told_apart = MISREADINGS.map(|_| 0);
        for number in 0..1_500 {
            let program = choosers::program(&mut Seed::new(number));
            let text = choosers::text(&program);
            assert_eq!(resolve(text.as_bytes()).as_ref(), Ok(&program), "{text}");
            let (before, now) = (before::finishing(&program), finishing(&program));
            assert_eq!(by_definition(&program, Reading::Right), now, "{text}");
            assert_eq!(by_definition(&program, Reading::Largest), now, "{text}");
            assert_eq!(by_definition(&program, Reading::AnyAlternative), before, "{text}");
            assert!(now || !before, "{text}");
            for (reading, times) in MISREADINGS.iter().zip(&mut told_apart) {
                *times += u32::from(by_definition(&program, *reading) != now);
            }
            yes += u32::from(now);
            no += u32::from(!now);
            wider += u32::from(now && !before);
        }
        assert!(yes > 400 && no > 400 && wider > 75, "{yes} yes, {no} no, {wider} by values alone");
        for (reading, times) in MISREADINGS.iter().zip(told_apart) {
            assert!(times > 9, "{reading:?} is told apart by {times} programs");
        }
    }

    #[test]
    fn large_programs() {
        let (mut yes, mut no) = (0, 0);
        for number in 0..16 {
            let program = choosers::large(&mut Seed::new(number), number % 2 == 1);
            let now = finishing(&program);
            assert_eq!(by_definition(&program, Reading::Right), now, "{number}");
            yes += u32::from(now);
            no += u32::from(!now);
        }
        assert!(yes > 0 && no > 0, "{yes} yes, {no} no");
    }
}
