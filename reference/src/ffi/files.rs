//! The library's entries for table files.

use super::Library;
use crate::files::{Files, Loaded, Written};

entry!(sst_load(file;; table; words verdict));
entry!(sst_write_file(table; verdict: u64; file; words));

impl Files for Library {
    fn name(&self) -> &'static str {
        "lib"
    }

    fn load(&self, file: &[u8], table: &mut [u8]) -> Loaded {
        let (number, [words, verdict]) = sst_load(file, table);
        Loaded { number, words, verdict }
    }

    fn write(&self, table: &[u8], verdict: u64, file: &mut [u8]) -> Written {
        let (number, [words]) = sst_write_file(table, verdict, file);
        Written { number, words }
    }
}
