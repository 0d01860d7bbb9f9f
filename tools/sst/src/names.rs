//! Instructions and events in the author's words.

use crate::known::{Class, Known};
use crate::layout::{Layout, Spot, What};
use reference::quiet;

pub struct Names<'a> {
    pub known: &'a Known<'a>,
    pub layout: &'a Layout,
    pub table: &'a [u16],
}

impl Names<'_> {
    fn operand(&self, spot: &Spot) -> u16 {
        self.table.get(spot.location).copied().unwrap_or(0)
    }

    /// The value of the constant before an operation, and its type.
    fn constant(&self, location: usize) -> Option<String> {
        let spot = self.layout.at(location.checked_sub(2)?)?;
        (spot.what == What::Constant).then(|| self.value(spot.of, self.operand(spot)))
    }

    pub fn value(&self, of: Option<reference::processor::At>, value: u16) -> String {
        of.map_or_else(|| value.to_string(), |of| self.known.value_name(of, value))
    }

    /// An operation by its instruction number, with its constant.
    pub fn operation(&self, number: u16, constant: Option<&str>) -> String {
        let found = self.known.operations().into_iter().find(|(other, _)| *other == number);
        let name = found.map_or_else(|| format!("operation {number}"), |(_, declared)| self.known.spelt(declared.name));
        constant.map_or(name.clone(), |constant| format!("{name}({constant})"))
    }

    pub fn rule(&self, location: usize) -> String {
        self.layout.rule_at(location).map_or_else(|| format!("location {location}"), |rule| rule.name.clone())
    }

    /// A call as it is written: rules made for operators have their use for a name.
    pub fn call(&self, location: usize) -> String {
        let name = self.rule(location);
        if name.starts_with('^') { name } else { format!("@{name}") }
    }

    /// An action as the author writes it.
    pub fn phrase(&self, spot: &Spot) -> String {
        let operand = self.operand(spot);
        match spot.what {
            What::Match | What::Required => self.known.name_of(Class::Input, operand),
            What::Any => "?".to_string(),
            What::Emit => format!(".{}", self.known.name_of(Class::Output, operand)),
            What::Signal => format!("#{}", self.known.name_of(Class::Error, operand)),
            What::Constant => format!("({})", self.value(spot.of, operand)),
            What::Update | What::Ask => {
                let number = self.table.get(spot.location - 1).copied().unwrap_or(0);
                self.operation(number, self.constant(spot.location).as_deref())
            }
            What::Call => self.call(usize::from(operand)),
            What::ChooseToken | What::ChooseValue => "[".to_string(),
            What::Labels => "labels".to_string(),
            What::Join => "]".to_string(),
            What::Leave => ">".to_string(),
            What::Again | What::Repaired => "}".to_string(),
            What::Result => format!(">> {}", self.value(spot.of, operand)),
            What::Return => ">>".to_string(),
            What::Last => ";".to_string(),
            What::NoLabel => "]".to_string(),
        }
    }

    /// The labels of a choice that lead to a location; none where it is the default.
    pub fn labels(&self, spot: &Spot, target: usize) -> Vec<String> {
        let (labels, default) = quiet::choice(self.table, spot.location);
        let led = labels.iter().filter(|(_, to)| *to == target && target != default);
        led.map(|(label, _)| self.label(spot, *label)).collect()
    }

    /// A choice with the alternative that is taken.
    pub fn taken(&self, spot: &Spot, target: usize) -> String {
        let labels = self.labels(spot, target);
        if labels.is_empty() { "[ *:".to_string() } else { format!("[ {}:", labels.join(", ")) }
    }

    /// What was never executed: actions as they are written, and the rest in words.
    pub fn told(&self, spot: &Spot) -> String {
        match spot.what {
            What::Join => "the end of an alternative".to_string(),
            What::Again => "the end of the cycle".to_string(),
            What::Last => "the end of the rule".to_string(),
            What::ChooseToken | What::ChooseValue => "the choice".to_string(),
            What::Required => "a token that has no label".to_string(),
            What::Repaired => "the way on behind a repair".to_string(),
            What::NoLabel => "a value that has no label".to_string(),
            _ => self.phrase(spot),
        }
    }

    pub fn label(&self, spot: &Spot, label: u16) -> String {
        match spot.what {
            What::ChooseToken => self.known.name_of(Class::Input, label),
            _ => self.value(spot.of, label),
        }
    }

    /// An event of three words.
    pub fn event(&self, [kind, number, constant]: [u16; 3]) -> String {
        match kind {
            1 => format!("output {}", self.known.name_of(Class::Output, number)),
            2 => format!("error {}", self.known.name_of(Class::Error, number)),
            3 => {
                let operations = self.known.operations();
                let of = operations.iter().find(|(other, _)| *other == number).and_then(|(_, declared)| declared.parameter);
                let constant = of.map(|of| self.known.value_name(of, constant));
                format!("operation {}", self.operation(number, constant.as_deref()))
            }
            _ => format!("repaired {}", self.known.name_of(Class::Input, number)),
        }
    }
}
