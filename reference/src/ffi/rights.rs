//! The library's entries for rights over the operations.

use super::Library;
use crate::files::Loaded;
use crate::rights::{Admitted, Rights};

entry!(sst_admit(table set;;; location));
entry!(sst_load_admitted(file set;; table; words verdict location));

impl Rights for Library {
    fn name(&self) -> &'static str {
        "lib"
    }

    fn admit(&self, table: &[u8], set: &[u8]) -> Admitted {
        let (number, [location]) = sst_admit(table, set);
        Admitted { number, location }
    }

    fn load_admitted(&self, file: &[u8], set: &[u8], table: &mut [u8]) -> (Loaded, u64) {
        let (number, [words, verdict, location]) = sst_load_admitted(file, set, table);
        (Loaded { number, words, verdict }, location)
    }
}
