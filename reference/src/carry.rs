//! Carrying a walk to new rules (A.14): for each location of the old table that lies in a rule with the same words in the new program,
//! the location there; a walk is carried if all its places are among them.

#[cfg(test)]
mod tests;
pub mod updates;
pub mod walks;
pub mod worked;

use crate::processor::marks::{Mark, Marked, RuleName, marks, sections};
use crate::side::Reference;
use crate::walker::{REFUSED, Walk};
use std::collections::HashMap;

/// The sections differ.
pub const SECTIONS: u16 = 51;
/// A rule in progress differs or is gone, or a place lies in no rule.
pub const RULE: u16 = 52;
/// The numbers of the two texts.
pub const OLD: u64 = 1;
pub const NEW: u64 = 2;

/// What `sst_carry` answers, the walk apart: the number, and of a text that is not accepted which one it is and the part at fault.
#[derive(Clone, Copy, PartialEq, Eq, Debug, Default)]
pub struct Carried {
    pub number: u16,
    pub text: u64,
    pub start: u64,
    pub len: u64,
}

impl Carried {
    pub fn only(number: u16) -> Carried {
        Carried { number, ..Carried::default() }
    }
}

/// The entry `sst_carry`.
pub trait Carrier {
    fn name(&self) -> &'static str;
    fn carry(&self, old: &[u8], new: &[u8], walk: &mut [u8]) -> Carried;
}

impl Carrier for Reference {
    fn name(&self) -> &'static str {
        "rust"
    }

    fn carry(&self, old: &[u8], new: &[u8], walk: &mut [u8]) -> Carried {
        carry(&Carrying::between(old, new), walk)
    }
}

/// The carrying between two programs, or what is answered to every walk.
pub fn carry(between: &Result<Carrying, Carried>, walk: &mut [u8]) -> Carried {
    let Some(state) = Walk::decode(walk) else { return Carried::only(REFUSED) };
    match between {
        Err(refused) => *refused,
        Ok(carrying) => match carrying.carried(&state) {
            None => Carried::only(RULE),
            Some(carried) => {
                walk.copy_from_slice(&carried.encode());
                Carried::only(0)
            }
        },
    }
}

/// The locations of one table that are carried to another.
pub struct Carrying {
    locations: HashMap<u16, u16>,
}

impl Carrying {
    /// Between two texts; the first that is not accepted is told, then sections that differ.
    pub fn between(old: &[u8], new: &[u8]) -> Result<Carrying, Carried> {
        let [before, after] = [(OLD, old), (NEW, new)].map(|(text, bytes)| {
            let told = |(number, start, len)| Carried { number, text, start: start as u64, len: len as u64 };
            marks(bytes).map_err(told)
        });
        let (before, after) = (before?, after?);
        if sections(old) != sections(new) {
            return Err(Carried::only(SECTIONS));
        }
        Ok(Carrying { locations: locations(&before.rules, &after.rules) })
    }

    /// The new location of a place, if it is carried.
    pub fn location(&self, place: u16) -> Option<u16> {
        self.locations.get(&place).copied()
    }

    /// All locations of the old table that are carried.
    pub fn carried_locations(&self) -> Vec<u16> {
        let mut all: Vec<u16> = self.locations.keys().copied().collect();
        all.sort_unstable();
        all
    }

    /// The walk with its places in the new table.
    pub fn carried(&self, walk: &Walk) -> Option<Walk> {
        let mut out = walk.clone();
        out.location = self.location(walk.location)?;
        for place in &mut out.returns[..walk.held] {
            *place = self.location(*place)?;
        }
        Some(out)
    }
}

/// The locations of the old rules that have the same words under their names, with those in the new table.
fn locations(old: &[Marked], new: &[Marked]) -> HashMap<u16, u16> {
    let by_name: HashMap<&RuleName, (usize, &[Mark])> =
        new.iter().map(|rule| (&rule.name, (rule.start, &rule.marks[..]))).collect();
    let mut all = HashMap::new();
    for rule in old {
        let Some((start, marks)) = by_name.get(&rule.name) else { continue };
        if *marks == rule.marks {
            all.extend((0..marks.len()).map(|word| ((rule.start + word) as u16, (start + word) as u16)));
        }
    }
    all
}
