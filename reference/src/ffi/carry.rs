//! The library's entry for carrying a walk to new rules.

use super::Library;
use crate::carry::{Carried, Carrier};

entry!(sst_carry(old new;; walk; text start len));

impl Carrier for Library {
    fn name(&self) -> &'static str {
        "lib"
    }

    fn carry(&self, old: &[u8], new: &[u8], walk: &mut [u8]) -> Carried {
        let (number, [text, start, len]) = sst_carry(old, new, walk);
        Carried { number, text, start, len }
    }
}
