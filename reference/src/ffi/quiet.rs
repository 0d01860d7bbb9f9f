//! The library's processor, with a program's figure and without.

use super::Library;
use crate::quiet::{Measured, Measurer};
use crate::side::{Processed, Processor};

entry!(sst_process(text;; table; start len words finishing figure figure_number));

impl Measurer for Library {
    fn name(&self) -> &'static str {
        "lib"
    }

    fn measure(&self, text: &[u8], table: &mut [u8]) -> Measured {
        let (number, [start, len, words, finishing, figure, figure_number]) = sst_process(text, table);
        Measured { processed: Processed { number, start, len, words, finishing }, figure, figure_number }
    }
}

impl Processor for Library {
    fn name(&self) -> &'static str {
        "lib"
    }

    fn process(&self, text: &[u8], table: &mut [u8]) -> Processed {
        self.measure(text, table).processed
    }
}
