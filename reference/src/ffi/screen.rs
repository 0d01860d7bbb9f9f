//! The library's entries for two books over one table.

use super::{Library, done};
use crate::screen::{BOOKS, Screens};
use crate::side::Inputs;
use crate::walker::Done;

setter!(sst_screen_fresh(screen; allowance_0: u16, allowance_1: u16));
setter!(sst_refill(screen; book: u16, left: u64));
entry!(sst_turn_whole(table tokens answers; book: u16; screen events; written steps));
entry!(sst_turn_paused(table tokens; given: u16, answer: u16, book: u16; screen events; written steps));

impl Screens for Library {
    fn name(&self) -> &'static str {
        "lib"
    }

    fn screen_fresh(&self, screen: &mut [u8], [first, second]: [u16; BOOKS]) -> u16 {
        sst_screen_fresh(screen, first, second)
    }

    fn refill(&self, screen: &mut [u8], book: u16, left: u64) -> u16 {
        sst_refill(screen, book, left)
    }

    fn turn_whole(&self, inputs: Inputs, book: u16, screen: &mut [u8], events: &mut [u8]) -> Done {
        done(sst_turn_whole(inputs.table, inputs.tokens, inputs.answers, book, screen, events))
    }

    fn turn_paused(&self, inputs: Inputs, given: u16, answer: u16, book: u16, screen: &mut [u8], events: &mut [u8]) -> Done {
        done(sst_turn_paused(inputs.table, inputs.tokens, given, answer, book, screen, events))
    }
}
