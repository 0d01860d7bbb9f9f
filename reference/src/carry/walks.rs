//! Walks to be carried, from a seed: those that lists of calls come to, made-up ones, and bytes that are none.

use crate::processor::Program;
use crate::random::{self, Rng};
pub use crate::slow::Feed;
use crate::tables::bytes;
use crate::texts::{self, Seed};
use crate::walker::{self, MAX_RETURNS, Phase, WALK_BYTES, Walk};

impl Feed {
    /// Tokens and answers that lead on, now and then over and over, so that many calls are pending.
    pub fn new(seed: &mut Seed, program: &Program) -> Feed {
        let (mut tokens, answers) = texts::feed(seed, program);
        if seed.one_in(3) && !tokens.is_empty() {
            let from = seed.below(tokens.len());
            tokens = tokens[from..].iter().copied().cycle().take(seed.below(90)).collect();
        } else if seed.one_in(4) {
            tokens = vec![seed.below(2) as u16; seed.within(60, 70)];
        }
        let allowance = if seed.one_in(2) { 0 } else { seed.below(12) as u16 };
        Feed { tokens, answers, allowance }
    }
}

/// The walks after each call of a list over a table, as many as so many steps have: in single steps, answers being taken by themselves.
pub fn reached(table: &[u8], feed: &Feed, pauses: bool, most: usize) -> Vec<Walk> {
    let (tokens, answers) = (bytes(&feed.tokens), bytes(&feed.answers));
    let mut walk = Walk::mending(feed.allowance);
    let mut all = vec![walk.clone()];
    let mut events = [0; 6];
    for _ in 0..most {
        let done = match walk.phase {
            Phase::Waiting => match feed.answers.get(walk.used as usize) {
                None => break,
                Some(answer) => walker::paused(table, &tokens, Some(*answer), 0, &mut walk, &mut events),
            },
            Phase::Going if pauses => walker::paused(table, &tokens, None, 1, &mut walk, &mut events),
            _ => walker::whole(table, &tokens, &answers, 1, &mut walk, &mut events),
        };
        all.push(walk.clone());
        if !matches!(done.number, walker::WAITS | walker::BUDGET) {
            break;
        }
    }
    all
}

/// A made-up walk whose places are all among these.
pub fn among(rng: &mut Rng, locations: &[u16]) -> Walk {
    let mut walk = random::made_up(rng, 4_096, 20, 20);
    walk.location = rng.pick(locations);
    if rng.once_in(4) {
        walk.held = MAX_RETURNS;
    }
    let held = walk.held;
    walk.returns[..held].fill_with(|| rng.pick(locations));
    walk
}

/// The ways of being no walk.
pub const DAMAGES: [&str; 9] = [
    "no bytes",
    "a byte less",
    "a byte more",
    "another length",
    "a phase above 2",
    "a reason of a walk that has not stopped",
    "no reason",
    "over 64 return locations",
    "a location that is not held",
];

/// Bytes that are damaged in that way, so that they are no walk.
pub fn damaged(rng: &mut Rng, walk: &Walk, way: usize) -> Vec<u8> {
    let mut walk = walk.clone();
    if way == 8 {
        walk.held = walk.held.min(MAX_RETURNS - 1);
    }
    let mut bytes = walk.encode().to_vec();
    let mut put = |word: usize, value: u16| bytes[2 * word..2 * word + 2].copy_from_slice(&value.to_be_bytes());
    match way {
        0 => bytes.clear(),
        1 => _ = bytes.pop(),
        2 => bytes.push(0),
        3 => bytes.resize(rng.pick(&[2, 79, 156, 160, 316, 332]), 0),
        4 => {
            put(0, rng.pick(&[3, 4, 255, 256, u16::MAX]));
            put(1, 0);
        }
        5 => {
            put(0, rng.below(2) as u16);
            put(1, rng.pick(&[1, 30, 34, 37, u16::MAX]));
        }
        6 => {
            put(0, 2);
            put(1, rng.pick(&[1, 21, 22, 29, 35, 36, 38, 52, 256 + 30, u16::MAX]));
        }
        7 => put(5, rng.pick(&[65, 66, 128, 256, u16::MAX])),
        _ => put(rng.within(15 + walk.held, WALK_BYTES / 2 - 1), rng.pick(&[1, 256, u16::MAX])),
    }
    bytes
}
