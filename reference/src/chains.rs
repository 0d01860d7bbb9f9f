//! Texts whose quiet paths are long: chains of calls with a figure that is known, deep nests, and rules on top of each other that come near the
//! bound on a walk's steps.

use crate::texts::Seed;
use std::fmt::Write;

/// What all texts here declare: updates `u`, a choice operation `c`, tokens and values.
const SECTIONS: &str = "input: a b; output: o; type t: v w x; mechanism m: u c >> t; rules\n";

/// A list of actions, and the most instructions on a quiet path through it.
struct Actions {
    text: String,
    long: u128,
}

impl Actions {
    fn none() -> Actions {
        Actions { text: String::new(), long: 0 }
    }

    fn add(&mut self, text: &str, long: u128) {
        let _ = write!(self.text, " {text}");
        self.long = self.long.saturating_add(long);
    }
}

struct Maker<'a> {
    seed: &'a mut Seed,
    /// The instructions of each rule's longest path up to its return; a rule calls earlier ones.
    rules: Vec<u128>,
}

impl Maker<'_> {
    /// A call of the last rule, as a rule.
    fn call(&mut self) -> Actions {
        let made = self.rules.len();
        let back = if self.seed.one_in(6) { 1 + self.seed.below(made.min(3)) } else { 1 };
        let called = made - back;
        Actions { text: format!("@r{called}"), long: self.rules[called].saturating_add(1) }
    }

    /// Something short or a call, in one of the forms of the language.
    fn item(&mut self, calls: bool) -> Actions {
        let Actions { text, long } = match self.seed.below(4) {
            _ if self.rules.is_empty() => Actions { text: "u".to_string(), long: 1 },
            0 if !calls => Actions { text: "u .o".to_string(), long: 2 },
            _ => self.call(),
        };
        let (text, more) = match self.seed.below(14) {
            0 => (format!("{{ {text} > }}"), 1),
            1 => (format!("{{ {{ {text} > }} > }}"), 2),
            2 => (format!("[ | *: {text} ]"), 1),
            3 => (format!("[ | a: ? | b: | *: {text} ]"), 1),
            // Operation, choice, the jump to the end.
            4 => (format!("[c | v: {text} | *: ]"), 3),
            5 => (format!("[c | v, x: | *: {text} ]"), 2),
            // Call, what returns the value, choice; the jump to the end.
            6 => (format!("[@V | v: {text} | *: ]"), 1 + VALUES[0] + 2),
            7 => (format!("[@V | w: {text} | v: ]"), 1 + VALUES[1] + 2),
            8 => (format!("[@V | v: | *: {text} ]"), 1 + VALUES[1] + 1),
            _ => (text, 0),
        };
        Actions { text, long: long.saturating_add(more) }
    }

    fn rule(&mut self) -> String {
        let mut body = Actions::none();
        for i in 0..*self.seed.of(&[1, 2, 2, 2, 3, 5]) {
            let Actions { text, long } = self.item(i == 0);
            body.add(&text, long);
        }
        let name = self.rules.len();
        self.rules.push(body.long.saturating_add(1));
        format!("r{name}:{};\n", body.text)
    }
}

/// A choice rule that returns v, or with two instructions more w, and x only after reading; with the lengths of the first two.
const VALUE_RULE: &str = "V >> t: [c | v: >> v | w: u u >> w | *: ? u u u >> x ];\n";
const VALUES: [u128; 2] = [4, 6];

/// The most rules of a chain.
const RULES: usize = 120;

/// A chain of calls whose figure is just this, 1,000 at the least.
pub fn chain(seed: &mut Seed, figure: u128) -> Vec<u8> {
    let mut maker = Maker { seed, rules: Vec::new() };
    let mut rules = Vec::new();
    while rules.len() < RULES && maker.rules.last().is_none_or(|long| *long < figure / 8) {
        rules.push(maker.rule());
    }
    let made = maker.rules;
    let shape = seed.below(4);
    // Besides its items the longest path has a return or a read, and round a cycle the jump.
    let end = if shape == 2 { 2 } else { 1 };
    let mut items = sum(&made, figure - end);
    for i in (1..items.len()).rev() {
        items.swap(i, seed.below(i + 1));
    }
    let items = items.join(" ");
    let first = match shape {
        0 => format!("M: {items};"),
        1 => format!("M: {items} ? u;"),
        2 => format!("M: {{ {items} ? }};"),
        _ => format!("M: ; N: {items};"),
    };
    rules.reverse();
    format!("{SECTIONS}{first}\n{VALUE_RULE}{}end\n", rules.concat()).into_bytes()
}

/// Calls of rules, and updates, of so many instructions together.
fn sum(rules: &[u128], mut left: u128) -> Vec<String> {
    let mut order: Vec<usize> = (0..rules.len()).collect();
    order.sort_by_key(|rule| std::cmp::Reverse(rules[*rule]));
    let mut items = Vec::new();
    for rule in order {
        while left > rules[rule] {
            items.push(format!("@r{rule}"));
            left -= rules[rule] + 1;
        }
    }
    items.extend((0..left).map(|_| "u".to_string()));
    items
}

/// A chain of as many rules as there may be, each calling the next so often as there is room for: no number of 128 bits has its length.
pub fn endless(seed: &mut Seed) -> Vec<u8> {
    let mut text = SECTIONS.to_string();
    let calls = seed.within(2, 14);
    for i in 0..128 {
        let call = if i < 127 { format!(" @r{}", i + 1) } else { String::new() };
        let read = if seed.one_in(40) { " [ | a: ]" } else { "" };
        let _ = writeln!(text, "r{i}:{}{read};", call.repeat(calls));
    }
    format!("{text}end\n").into_bytes()
}

/// Cycles and choices in each other, up to so deep, that are finishing but for a slip here and there.
pub fn nest(seed: &mut Seed, depth: usize) -> Vec<u8> {
    let mut nest = Nest { seed, slip: 0, fuel: 0 };
    nest.slip = if nest.seed.one_in(3) { 60 } else { usize::MAX };
    nest.fuel = 20 + nest.seed.below(80);
    let first = nest.list(depth, false);
    nest.fuel = nest.seed.below(60);
    let second = nest.list(depth, false);
    let value = *nest.seed.of(&["v", "w", "x"]);
    let values = format!("V >> t: [ | a: >> {value} | *: u >> w ];\nW >> t: [c | v: ? >> v | w: u u >> w | *: >> x ];\n");
    format!("{SECTIONS}M:{first};\nN:{second};\nP: u u .o;\n{values}end\n").into_bytes()
}

struct Nest<'a> {
    seed: &'a mut Seed,
    /// One cycle in so many may go round quietly.
    slip: usize,
    fuel: usize,
}

impl Nest<'_> {
    fn list(&mut self, depth: usize, cycle: bool) -> String {
        let mut text = String::new();
        // One goes as deep as it can, the others need not.
        let deep = self.seed.below(3);
        for i in 0..3 {
            if i == deep && depth > 0 {
                text.push_str(&self.deeper(depth - 1, cycle));
            } else if self.fuel > 0 {
                self.fuel -= 1;
                let further = if depth > 0 { self.seed.below(depth) } else { 0 };
                match self.seed.below(10) {
                    0 if depth > 0 => text.push_str(&self.deeper(further, cycle)),
                    1 => text.push_str(" ?"),
                    2 => text.push_str(" @P"),
                    3 | 4 => text.push_str(" u"),
                    5 => text.push_str(" .o"),
                    _ => {}
                }
            }
        }
        text
    }

    fn deeper(&mut self, depth: usize, cycle: bool) -> String {
        let goes_round = self.slip < usize::MAX && self.seed.one_in(self.slip);
        match self.seed.below(9) {
            0 if goes_round => format!(" {{{}}}", self.list(depth, true)),
            0 => format!(" {{{} ?}}", self.list(depth, true)),
            1 => format!(" {{{} >}}", self.list(depth, true)),
            2 if depth > 0 => format!(" {{ [ | a:{} | *: > ]}}", self.list(depth - 1, true)),
            3 if depth > 0 => format!(" {{ [@V | v:{} | w: > | *: ? ]}}", self.list(depth - 1, true)),
            4 => format!(" [c | v:{} | w: u ]", self.list(depth, cycle)),
            5 => format!(" [@W | v:{} | *: ]", self.list(depth, cycle)),
            6 => format!(" [@W | x, v: | *:{} ]", self.list(depth, cycle)),
            7 => format!(" [ | b, a:{} ]", self.list(depth, cycle)),
            _ => format!(" [ | *:{} ]", self.list(depth, cycle)),
        }
    }
}

/// Rules on top of each other, `deep` calls pending at the innermost, which reads; each of them then does a whole quiet path up to its return. The
/// figure is `long`, above `deep` by two at the least.
pub fn tower(deep: usize, long: usize, read: &str) -> Vec<u8> {
    let updates = |count: usize| " u".repeat(count);
    let mut text = SECTIONS.to_string();
    // Behind the call: updates, jump, the calls, the read.
    let _ = writeln!(text, "M: {{ @r1{} }};", updates(long - deep - 2));
    for i in 1..deep {
        // Behind the call: call, the called rule, return.
        let _ = writeln!(text, "r{i}: @r{} @T;", i + 1);
    }
    let _ = writeln!(text, "r{deep}: {read}{};", updates(long - 1));
    let _ = writeln!(text, "T:{};", updates(long - 3));
    format!("{text}end\n").into_bytes()
}

#[cfg(test)]
mod tests {
    use super::*;
    use crate::processor::resolve;
    use crate::quiet::{Figure, GREATEST, figure};

    #[test]
    fn chains_have_their_figure() {
        let greatest = u128::from(GREATEST);
        for number in 0..200 {
            let seed = &mut Seed::new(number);
            let wanted = *seed.of(&[1_000, 77_777, greatest - 1, greatest, greatest + 1, 1 << 40]);
            let program = resolve(&chain(seed, wanted)).expect("a good text");
            let expected = if wanted > greatest { Figure::TooLong } else { Figure::Most(wanted as u64) };
            assert_eq!(figure(&program), expected, "seed {number}");
        }
    }

    #[test]
    fn towers_have_their_figure() {
        for (deep, long) in [(1, 3), (1, 40), (2, 5), (30, 32), (63, 200), (64, 66), (64, 1_200)] {
            let program = resolve(&tower(deep, long, "?")).expect("a good text");
            assert_eq!(figure(&program), Figure::Most(long as u64), "{deep} {long}");
        }
    }
}
