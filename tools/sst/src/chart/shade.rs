//! How often what a chart shows was executed, by a report of `sst figures`.

use super::not_of;
use crate::input::Input;
use crate::layout::{Layout, RuleSpan, What};
use crate::session::Trouble;
use crate::source::Source;
use std::collections::HashMap;

#[derive(Clone, Copy, PartialEq, Eq, PartialOrd, Ord, Debug)]
pub enum Shade {
    Never,
    /// There are no figures for it.
    Plain,
    /// From 1 to `MOST`, the greater the oftener.
    Level(u32),
}

/// The darkest level.
pub const MOST: u32 = 5;

/// No counts where there is no report.
#[derive(Default)]
pub struct Shades {
    counts: HashMap<usize, u64>,
    /// What the report says of each rule, by its location.
    rules: HashMap<usize, String>,
    most: u64,
}

impl Shades {
    /// The counts of a report: those of the instructions where it has them, and otherwise those of the rules, which their instructions share.
    pub fn read(report: &Input, source: &Source, layout: &Layout) -> Result<Shades, Trouble> {
        let text = String::from_utf8_lossy(&report.bytes);
        let refused = |why: &str| not_of(&report.name, source, why);
        let mut shades = Shades::default();
        for rule in &layout.rules {
            let head = format!("rule {}, line {}: ", rule.name, rule.line);
            let Some(told) = text.lines().find_map(|line| line.strip_prefix(&head)) else {
                return Err(refused(&format!("it has no rule {} in line {}", rule.name, rule.line)));
            };
            let total = number(told).ok_or_else(|| refused("a rule has no count"))?;
            shades.share(layout, rule, total);
            shades.rules.insert(rule.location, told.to_string());
        }
        if text.lines().filter(|line| line.starts_with("rule ")).count() != layout.rules.len() {
            return Err(refused("it has other rules too"));
        }
        for line in text.lines().filter(|line| line.starts_with("never ") || line.starts_with("count ")) {
            let (location, count) = counted(line).ok_or_else(|| refused("a line has no location"))?;
            if layout.at(location).is_none() {
                return Err(refused(&format!("there is no instruction at location {location}")));
            }
            shades.counts.insert(location, count);
        }
        shades.most = shades.counts.values().copied().max().unwrap_or(0);
        Ok(shades)
    }

    /// The executions of a rule, shared by its instructions.
    fn share(&mut self, layout: &Layout, rule: &RuleSpan, total: u64) {
        let inside = |location: usize| (rule.location..rule.end).contains(&location);
        let spots = layout.spots.iter().filter(|spot| inside(spot.location) && spot.what != What::Labels);
        let locations: Vec<usize> = spots.map(|spot| spot.location).collect();
        let each = total.div_ceil(locations.len().max(1) as u64);
        self.counts.extend(locations.iter().map(|location| (*location, each)));
    }

    pub fn are_there(&self) -> bool {
        !self.counts.is_empty()
    }

    pub fn at(&self, location: Option<usize>) -> Shade {
        match location.and_then(|location| self.counts.get(&location)) {
            None => Shade::Plain,
            Some(0) => Shade::Never,
            Some(count) => Shade::Level(level(*count, self.most)),
        }
    }

    /// What the report says of a rule.
    pub fn rule(&self, rule: &RuleSpan) -> &str {
        self.rules.get(&rule.location).map_or("", String::as_str)
    }
}

/// The level of a count: equal steps of its number of binary digits.
fn level(count: u64, most: u64) -> u32 {
    let digits = |number: u64| u64::BITS - number.leading_zeros();
    (MOST * digits(count)).div_ceil(digits(most).max(1)).clamp(1, MOST)
}

/// The number that a text begins with, with commas between its thousands.
fn number(text: &str) -> Option<u64> {
    let digits: String =
        text.chars().take_while(|sign| sign.is_ascii_digit() || *sign == ',').filter(|sign| *sign != ',').collect();
    digits.parse().ok()
}

/// The location and the count of a line.
fn counted(line: &str) -> Option<(usize, u64)> {
    let (_, behind) = line.rsplit_once(", location ")?;
    let location = number(behind)? as usize;
    let count = if line.starts_with("never ") { 0 } else { number(behind.split_once(": ")?.1)? };
    Some((location, count))
}

#[cfg(test)]
mod tests {
    use super::*;

    #[test]
    fn lines_and_levels() {
        assert_eq!(counted("never 17:9 the end, location 3, rule A, location 15"), Some((15, 0)));
        assert_eq!(counted("count 17:9 @Line, rule A, location 15: 1,204 executions"), Some((15, 1_204)));
        assert_eq!(counted("never 17:9 x"), None);
        assert_eq!((level(1, 1), level(1, 1_000), level(31, 1_000), level(1_000, 1_000)), (MOST, 1, 3, MOST));
        assert_eq!(level(u64::MAX, u64::MAX), MOST);
    }
}
