//! The library's entries for parts translated separately.

use super::Library;
use crate::parts::{Linked, Parts, Translated};

entry!(sst_part(common part;; object; text start len words));
entry!(sst_link(common objects;; table; text start len words finishing figure figure_number));

impl Parts for Library {
    fn name(&self) -> &'static str {
        "lib"
    }

    fn part(&self, common: &[u8], part: &[u8], object: &mut [u8]) -> Translated {
        let (number, [text, start, len, words]) = sst_part(common, part, object);
        Translated { number, text, start, len, words }
    }

    fn link(&self, common: &[u8], objects: &[u8], table: &mut [u8]) -> Linked {
        let (number, [text, start, len, words, finishing, figure, figure_number]) = sst_link(common, objects, table);
        Linked { number, text, start, len, words, finishing, figure, figure_number }
    }
}
