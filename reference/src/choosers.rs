//! Programs rich in choice rules: rule choices with labels by value, with and without otherwise, values returned after reading and quietly,
//! rules that call each other, cycles.

use crate::processor::{Act, By, Choice, Program, Rule};
use crate::texts::Seed;
use std::collections::BTreeSet;
use std::fmt::Write;

const TOKENS: usize = 2;
/// The values that are returned.
pub const VALUES: [u16; 6] = [0, 1, 2, 3, 256, 65_535];
/// The one update and the one choice operation.
const UPDATE: u16 = 256;
const ASKS: u16 = 768;

struct Maker<'a> {
    seed: &'a mut Seed,
    chooses: &'a [bool],
    values: &'a [u16],
    /// The rule that is made.
    rule: usize,
    fuel: usize,
}

/// A program. Its first rule is a procedure rule, one of the others or more are choice rules.
pub fn program(seed: &mut Seed) -> Program {
    let mut values = VALUES.to_vec();
    shuffle(seed, &mut values);
    values.truncate(2 + seed.below(3));
    let choosers = 1 + seed.below(4);
    let mut chooses: Vec<bool> = (0..choosers + seed.below(3)).map(|i| i < choosers).collect();
    shuffle(seed, &mut chooses);
    chooses.insert(0, false);
    let size = 4 + seed.below(10);
    let rules = (0..chooses.len()).map(|rule| {
        let mut maker = Maker { seed, chooses: &chooses, values: &values, rule, fuel: size };
        Rule { chooses: chooses[rule], acts: maker.body() }
    });
    Program { rules: rules.collect() }
}

fn shuffle<T>(seed: &mut Seed, items: &mut [T]) {
    for i in (1..items.len()).rev() {
        items.swap(i, seed.below(i + 1));
    }
}

impl Maker<'_> {
    fn body(&mut self) -> Vec<Act> {
        if !self.chooses[self.rule] {
            let mut acts = self.list(3, false);
            if self.rule == 0 || self.seed.one_in(3) {
                acts.push(self.cycle(3));
            }
            return acts;
        }
        let mut acts = if self.seed.one_in(2) { self.list(2, false) } else { Vec::new() };
        match self.seed.below(12) {
            0..=2 => acts.push(self.returned()),
            3..=7 => acts.push(self.returning(By::Token)),
            8 | 9 => acts.push(self.chooser().map_or(self.returned(), |rule| self.returning(By::Rule(rule)))),
            10 => acts.push(self.returning(By::Operation(ASKS, None))),
            _ => {
                // It is left by `>>` alone.
                let mut round = self.list(2, false);
                let token = self.seed.below(TOKENS) as u16;
                round.insert(self.seed.below(round.len() + 1), Act::Match(token));
                round.push(self.returning(By::Token));
                acts.push(Act::Cycle(round));
            }
        }
        acts
    }

    fn returned(&mut self) -> Act {
        Act::Return(Some(*self.seed.of(self.values)))
    }

    /// A choice all of whose alternatives return.
    fn returning(&mut self, by: By) -> Act {
        let mut choice = self.choice(by, 1, false);
        for acts in choice.alternatives.iter_mut().map(|(_, acts)| acts).chain(&mut choice.otherwise) {
            acts.push(self.returned());
        }
        Act::Choice(choice)
    }

    fn list(&mut self, depth: usize, cycle: bool) -> Vec<Act> {
        let mut acts = Vec::new();
        for _ in 0..*self.seed.of(&[0, 0, 1, 1, 2]) {
            if self.fuel > 0 {
                self.fuel -= 1;
                acts.push(self.act(depth, cycle));
            }
        }
        if self.seed.one_in(16) {
            // At a list's end, so that no name stands behind a `>>` without value.
            acts.push(if self.chooses[self.rule] { self.returned() } else { Act::Return(None) });
        }
        acts
    }

    fn act(&mut self, depth: usize, cycle: bool) -> Act {
        match self.seed.below(20) {
            0..=3 => Act::Match(self.seed.below(TOKENS) as u16),
            4 => Act::Any,
            5 => Act::Emit(0),
            6 => Act::Update(UPDATE, None),
            7..=9 => self.called(false).map_or(Act::Any, Act::Call),
            10 if cycle => Act::Exit,
            11 | 12 if depth > 0 => self.cycle(depth - 1),
            13 | 14 if depth > 0 => Act::Choice(self.choice(By::Token, depth - 1, cycle)),
            15 if depth > 0 => Act::Choice(self.choice(By::Operation(ASKS, None), depth - 1, cycle)),
            16..=19 if depth > 0 => {
                let by = self.chooser().map_or(By::Token, By::Rule);
                Act::Choice(self.choice(by, depth - 1, cycle))
            }
            _ => Act::Signal(0),
        }
    }

    /// A cycle with a choice at its end, by a rule as a rule.
    fn cycle(&mut self, depth: usize) -> Act {
        let mut acts = if self.seed.one_in(3) { self.list(depth, true) } else { Vec::new() };
        let by = if self.seed.one_in(4) { By::Token } else { self.chooser().map_or(By::Token, By::Rule) };
        acts.push(Act::Choice(self.choice(by, depth.saturating_sub(1), true)));
        Act::Cycle(acts)
    }

    fn chooser(&mut self) -> Option<usize> {
        self.called(true)
    }

    /// A rule of the sort, most often one further on.
    fn called(&mut self, chooses: bool) -> Option<usize> {
        let from = if self.seed.one_in(6) { 0 } else { self.rule + 1 };
        let rules: Vec<usize> = (from..self.chooses.len()).filter(|rule| self.chooses[*rule] == chooses).collect();
        (!rules.is_empty()).then(|| *self.seed.of(&rules))
    }

    fn choice(&mut self, by: By, depth: usize, cycle: bool) -> Choice {
        let mut labels: Vec<u16> = match by {
            By::Token => (0..TOKENS as u16).collect(),
            _ => self.values.to_vec(),
        };
        shuffle(self.seed, &mut labels);
        labels.truncate(self.seed.below(labels.len() + 1));
        let mut alternatives = Vec::new();
        while !labels.is_empty() {
            let of = labels.split_off(labels.len() - 1 - self.seed.below(labels.len().min(2)));
            alternatives.push((of, self.alternative(depth, cycle)));
        }
        let otherwise = alternatives.is_empty() || self.seed.one_in(2);
        let otherwise = otherwise.then(|| self.alternative(depth, cycle));
        Choice { by, alternatives, otherwise }
    }

    fn alternative(&mut self, depth: usize, cycle: bool) -> Vec<Act> {
        let mut acts = if self.seed.one_in(3) { self.list(depth, cycle) } else { Vec::new() };
        if cycle && self.seed.one_in(2) {
            acts.push(Act::Exit);
        }
        acts
    }
}

/// A program of up to 4,096 words in which some values are returned only after reading and others also quietly; its cycles go round by the
/// first sort alone. So it is finishing, but for a slip here and there, if `slips`.
pub fn large(seed: &mut Seed, slips: bool) -> Program {
    let mut values: Vec<u16> = Vec::new();
    let most = *seed.of(&[6, 20, 60, 260]);
    for _ in 0..4 + seed.below(most) {
        let value = seed.below(65_536) as u16;
        if !values.contains(&value) {
            values.push(value);
        }
    }
    let after = values.split_off(values.len() / 2);
    let rules = 2 + seed.below(126);
    let deepest = seed.within(1, 31);
    let slip = if slips { 1 + seed.below(20) } else { usize::MAX };
    let mut maker = Careful { seed, after, quiet: values, rules, rule: 0, left: 0, deepest, slip };
    let mut words: usize = 3_700;
    let rules = (0..rules).map(|rule| {
        maker.rule = rule;
        maker.left = words / (rules - rule);
        let room = maker.left;
        let chooses = rule > 0 && (rule + 1 == rules || rule % 4 != 0);
        let acts = maker.body(chooses);
        words -= room - maker.left;
        Rule { chooses, acts }
    });
    Program { rules: rules.collect() }
}

struct Careful<'a> {
    seed: &'a mut Seed,
    /// The values that are returned only after reading, and the others.
    after: Vec<u16>,
    quiet: Vec<u16>,
    rules: usize,
    rule: usize,
    /// The words that this rule may still have.
    left: usize,
    deepest: usize,
    /// One in so many places is wrong.
    slip: usize,
}

impl Careful<'_> {
    fn body(&mut self, chooses: bool) -> Vec<Act> {
        let mut acts = Vec::new();
        if chooses {
            self.returns(&mut acts, 0, false);
            return acts;
        }
        while self.take(30) {
            let body = vec![self.round(1)];
            acts.push(Act::Cycle(body));
        }
        acts
    }

    /// So many words, if there are.
    fn take(&mut self, words: usize) -> bool {
        let some = self.left >= words;
        self.left = self.left.saturating_sub(words);
        some
    }

    /// Whether this place is to be wrong.
    fn slips(&mut self) -> bool {
        self.slip < usize::MAX && self.seed.one_in(self.slip)
    }

    /// A choice rule further on.
    fn called(&mut self) -> Option<usize> {
        let rules: Vec<usize> = (self.rule + 1..self.rules).filter(|rule| *rule + 1 == self.rules || rule % 4 != 0).collect();
        (!rules.is_empty()).then(|| *self.seed.of(&rules))
    }

    /// A value to return, after reading or perhaps quietly.
    fn value(&mut self, read: bool) -> Act {
        let after = (read && !self.seed.one_in(3)) != self.slips();
        Act::Return(Some(*self.seed.of(if after { &self.after } else { &self.quiet })))
    }

    /// Labels of one sort, each once.
    fn labels(&mut self, after: bool) -> Vec<u16> {
        let mut labels = if after { self.after.clone() } else { self.quiet.clone() };
        shuffle(self.seed, &mut labels);
        let most = (self.left / 8).clamp(1, 32);
        labels.truncate(1 + self.seed.below(labels.len().min(most)));
        self.left = self.left.saturating_sub(2 * labels.len());
        labels
    }

    /// Actions that end by returning a value.
    fn returns(&mut self, acts: &mut Vec<Act>, depth: usize, mut read: bool) {
        if self.seed.one_in(8) && self.take(2) {
            acts.push(Act::Match(0));
            read = true;
        }
        if self.seed.one_in(6) && self.take(1) {
            acts.push(Act::Update(UPDATE, None));
        }
        let called = self.called().filter(|_| depth < self.deepest && self.left >= 30 && !self.seed.one_in(5));
        self.left = self.left.saturating_sub(17);
        let Some(called) = called else {
            acts.push(if depth == self.deepest || self.left < 10 { self.value(read) } else { self.by_token(read) });
            return;
        };
        // Where a value was returned that wants reading, something was read.
        let mut alternatives = Vec::new();
        for after in [true, false] {
            if self.seed.one_in(4) {
                continue;
            }
            let labels = self.labels(after);
            let mut list = Vec::new();
            if self.seed.one_in(6) {
                // Past the choice, but only after reading.
                if !after {
                    list.push(Act::Any);
                }
            } else {
                self.returns(&mut list, depth + 1, read || after);
            }
            alternatives.push((labels, list));
        }
        shuffle(self.seed, &mut alternatives);
        let mut otherwise = Vec::new();
        self.returns(&mut otherwise, depth + 1, read);
        acts.push(Act::Choice(Choice { by: By::Rule(called), alternatives, otherwise: Some(otherwise) }));
        acts.push(self.value(true));
    }

    /// A choice by the present token; with none of its labels a value is returned quietly.
    fn by_token(&mut self, read: bool) -> Act {
        let labelled = self.value(true);
        let otherwise = self.value(read);
        Act::Choice(Choice { by: By::Token, alternatives: vec![(vec![0], vec![labelled])], otherwise: Some(vec![otherwise]) })
    }

    /// The choice of a cycle: round by values that are returned after reading, out by all others.
    fn round(&mut self, depth: usize) -> Act {
        let Some(called) = self.called() else { return Act::Any };
        let after = !self.slips();
        let labels = self.labels(after);
        let mut again = Vec::new();
        if depth < self.deepest && self.take(30) {
            let inner = self.round(depth + 2);
            again.push(Act::Cycle(vec![inner]));
        }
        let alternatives = vec![(labels, again)];
        Act::Choice(Choice { by: By::Rule(called), alternatives, otherwise: Some(vec![Act::Exit]) })
    }
}

/// The program's text: a value's name has its number.
pub fn text(program: &Program) -> String {
    let mut writer = Writer { values: BTreeSet::from([0]), text: String::new() };
    for (i, rule) in program.rules.iter().enumerate() {
        let result = if rule.chooses { " >> b" } else { "" };
        let _ = write!(writer.text, "r{i}{result}:");
        writer.list(&rule.acts);
        writer.text.push_str(";\n");
    }
    let values: String = writer.values.iter().map(|value| format!(" v{value} = {value}")).collect();
    let sections = format!("input: t0 t1; output: o; error: e; type b:{values}; mechanism m: u c >> b;");
    format!("{sections}\nrules\n{}end\n", writer.text)
}

struct Writer {
    values: BTreeSet<u16>,
    text: String,
}

impl Writer {
    fn list(&mut self, acts: &[Act]) {
        acts.iter().for_each(|act| self.act(act));
    }

    fn put(&mut self, word: &str) {
        self.text.push(' ');
        self.text.push_str(word);
    }

    fn value(&mut self, value: u16) -> String {
        self.values.insert(value);
        format!("v{value}")
    }

    fn act(&mut self, act: &Act) {
        match act {
            Act::Match(token) => self.put(&format!("t{token}")),
            Act::Any => self.put("?"),
            Act::Emit(_) => self.put(".o"),
            Act::Signal(_) => self.put("#e"),
            Act::Update(..) => self.put("u"),
            Act::Exit => self.put(">"),
            Act::Call(rule) => self.put(&format!("@r{rule}")),
            Act::Return(None) => self.put(">>"),
            Act::Return(Some(value)) => {
                let name = self.value(*value);
                self.put(&format!(">> {name}"));
            }
            Act::Cycle(acts) => {
                self.put("{");
                self.list(acts);
                self.put("}");
            }
            Act::Choice(choice) => self.choice(choice),
        }
    }

    fn choice(&mut self, choice: &Choice) {
        match choice.by {
            By::Token => self.put("["),
            By::Rule(rule) => self.put(&format!("[@r{rule}")),
            By::Operation(..) => self.put("[c"),
        }
        for (labels, acts) in &choice.alternatives {
            let token = choice.by == By::Token;
            let names: Vec<String> =
                labels.iter().map(|label| if token { format!("t{label}") } else { self.value(*label) }).collect();
            self.put(&format!("| {}:", names.join(", ")));
            self.list(acts);
        }
        if let Some(acts) = &choice.otherwise {
            self.put("| *:");
            self.list(acts);
        }
        self.put("]");
    }
}
