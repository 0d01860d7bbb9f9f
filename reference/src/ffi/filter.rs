//! The library's entry for the character filter.

use super::Library;
use crate::side::{Filtered, Folder};

entry!(sst_filter(filter text;; tokens; at written));

impl Folder for Library {
    fn name(&self) -> &'static str {
        "lib"
    }

    fn fold(&self, filter: &[u8], text: &[u8], tokens: &mut [u8]) -> Filtered {
        let (number, [at, written]) = sst_filter(filter, text, tokens);
        Filtered { number, at, written }
    }
}
