//! The entries of the C interface, as a trait for all walkers and one for all processors, and this crate's own behind them.

use crate::processor::{self, Answer};
use crate::walker::{self, Done, Phase, REFUSED, Walk};

/// What a call reads.
#[derive(Clone, Copy)]
pub struct Inputs<'a> {
    pub table: &'a [u8],
    pub tokens: &'a [u8],
    pub answers: &'a [u8],
}

/// The entries of `sst.h`. A paused call reads no answers.
pub trait Side {
    fn name(&self) -> &'static str;
    fn fresh(&self, walk: &mut [u8], allowance: u16) -> u16;
    fn whole(&self, inputs: Inputs, budget: u64, walk: &mut [u8], events: &mut [u8]) -> Done;
    fn paused(&self, inputs: Inputs, given: u16, answer: u16, budget: u64, walk: &mut [u8], events: &mut [u8]) -> Done;
    fn phase(&self, walk: &[u8]) -> u16;
    fn reason(&self, walk: &[u8]) -> u16;
    fn location(&self, walk: &[u8]) -> u16;
    fn read(&self, walk: &[u8]) -> u64;
    fn used(&self, walk: &[u8]) -> u64;
    fn allowance(&self, walk: &[u8]) -> u16;
}

/// What a call of the processor answers, the lent bytes apart.
#[derive(Clone, Copy, PartialEq, Eq, Debug)]
pub struct Processed {
    pub number: u16,
    pub start: u64,
    pub len: u64,
    pub words: u64,
    pub finishing: u64,
}

impl Processed {
    pub fn of(answer: &Answer) -> Processed {
        match answer {
            Answer::Accepted { table, finishing } => {
                Processed { number: 0, start: 0, len: 0, words: table.len() as u64, finishing: u64::from(*finishing) }
            }
            Answer::Refused { number, start, len } => {
                Processed { number: *number, start: *start as u64, len: *len as u64, words: 0, finishing: 0 }
            }
        }
    }
}

/// The entry `sst_process`.
pub trait Processor {
    fn name(&self) -> &'static str;
    fn process(&self, text: &[u8], table: &mut [u8]) -> Processed;
}

/// What a call of the character filter answers, the token buffer apart.
#[derive(Clone, Copy, PartialEq, Eq, Debug)]
pub struct Filtered {
    pub number: u16,
    pub at: u64,
    pub written: u64,
}

/// The entry `sst_filter`.
pub trait Folder {
    fn name(&self) -> &'static str;
    fn fold(&self, filter: &[u8], text: &[u8], tokens: &mut [u8]) -> Filtered;
}

/// The walker and the processor of this crate.
pub struct Reference;

impl Processor for Reference {
    fn name(&self) -> &'static str {
        "rust"
    }

    fn process(&self, text: &[u8], table: &mut [u8]) -> Processed {
        let answer = processor::process(text, table.len() / 2);
        processor::lent(&answer, table);
        Processed::of(&answer)
    }
}

/// What a call that is refused answers.
pub const REFUSAL: Done = Done { number: REFUSED, written: 0, steps: 0 };

impl Side for Reference {
    fn name(&self) -> &'static str {
        "rust"
    }

    fn fresh(&self, walk: &mut [u8], allowance: u16) -> u16 {
        if walk.len() != walker::WALK_BYTES {
            return REFUSED;
        }
        walk.copy_from_slice(&Walk::mending(allowance).encode());
        0
    }

    fn whole(&self, inputs: Inputs, budget: u64, walk: &mut [u8], events: &mut [u8]) -> Done {
        let Some(mut state) = Walk::decode(walk) else { return REFUSAL };
        let done = walker::whole(inputs.table, inputs.tokens, inputs.answers, budget, &mut state, events);
        walk.copy_from_slice(&state.encode());
        done
    }

    fn paused(&self, inputs: Inputs, given: u16, answer: u16, budget: u64, walk: &mut [u8], events: &mut [u8]) -> Done {
        let Some(mut state) = Walk::decode(walk) else { return REFUSAL };
        let answer = (given != 0).then_some(answer);
        let done = walker::paused(inputs.table, inputs.tokens, answer, budget, &mut state, events);
        walk.copy_from_slice(&state.encode());
        done
    }

    fn phase(&self, walk: &[u8]) -> u16 {
        match Walk::decode(walk).map(|walk| walk.phase) {
            Some(Phase::Going) => 0,
            Some(Phase::Waiting) => 1,
            Some(Phase::Stopped(_)) => 2,
            None => 3,
        }
    }

    fn reason(&self, walk: &[u8]) -> u16 {
        match Walk::decode(walk).map(|walk| walk.phase) {
            Some(Phase::Stopped(reason)) => reason as u16,
            _ => u16::MAX,
        }
    }

    fn location(&self, walk: &[u8]) -> u16 {
        Walk::decode(walk).map_or(0, |walk| walk.location)
    }

    fn read(&self, walk: &[u8]) -> u64 {
        Walk::decode(walk).map_or(0, |walk| walk.read)
    }

    fn used(&self, walk: &[u8]) -> u64 {
        Walk::decode(walk).map_or(0, |walk| walk.used)
    }

    fn allowance(&self, walk: &[u8]) -> u16 {
        Walk::decode(walk).map_or(0, |walk| walk.allowance)
    }
}
