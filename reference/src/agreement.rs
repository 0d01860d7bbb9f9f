//! Walks over a program's table in calls of any budget and buffer, held against the rules' own walk after each call.

use crate::rules::{Own, State};
use crate::side::{Inputs, Side};
use crate::tables::bytes;
use crate::texts::Seed;
use crate::walker::{Phase, Walk};

/// The steps over the table of a walk that does not stop. The rules' own walk does at most 40 for each: the ends of lists in each other.
pub const ENDLESS: usize = 1_500;

/// What a walk is fed, and by whom; with `pauses`, in paused calls.
#[derive(Clone, Copy)]
pub struct Calls<'a> {
    pub side: &'a dyn Side,
    pub table: &'a [u8],
    pub tokens: &'a [u16],
    pub answers: &'a [u16],
    pub pauses: bool,
}

/// A walk after its calls, with what they wrote and did, and whether it agrees with the rules' own.
pub struct Run {
    pub walk: Vec<u8>,
    pub number: u16,
    pub events: Vec<u8>,
    pub steps: u64,
    pub agrees: bool,
}

impl Run {
    /// The walk, where the bytes are one.
    pub fn state(&self) -> Walk {
        Walk::decode(&self.walk).unwrap_or_default()
    }

    fn waits(&self) -> bool {
        self.state().phase == Phase::Waiting
    }

    /// How much further the rules' own walk is where this one stands. That one writes an operation's event and takes its answer at once.
    fn on_the_way(&self, states: &[State]) -> Option<usize> {
        let walk = Walk::decode(&self.walk)?;
        let now = (self.events.len() / 6 - usize::from(self.number == 22), walk.read, walk.used, walk.allowance);
        states.iter().position(|state| *state == now)
    }

    /// One call; with an answer, or asked for one, it is a paused call.
    fn go(&mut self, side: &dyn Side, inputs: Inputs, paused: Option<Option<u16>>, budget: u64, size: usize) {
        let mut events = vec![0; size];
        let done = match paused {
            None => side.whole(inputs, budget, &mut self.walk, &mut events),
            Some(answer) => {
                let given = u16::from(answer.is_some());
                side.paused(inputs, given, answer.unwrap_or(0), budget, &mut self.walk, &mut events)
            }
        };
        let written = (done.written as usize).saturating_mul(6).min(size);
        self.events.extend_from_slice(&events[..written]);
        self.number = done.number;
        self.steps += done.steps;
    }
}

impl Calls<'_> {
    /// Goes on with a walk until it stops, waits for an answer past the last, or has done as many steps as the rules' own walk can want.
    /// `met` is shown the number of each call.
    pub fn run(&self, seed: &mut Seed, walk: Vec<u8>, own: &Own, mut met: impl FnMut(u16)) -> Run {
        let mut run = Run { walk, number: 36, events: Vec::new(), steps: 0, agrees: true };
        if run.waits() {
            run.number = 22;
        }
        let most = if own.end.reason.is_some() { 3 * own.steps as u64 + 3 } else { ENDLESS as u64 };
        let mut state = 0;
        let long = seed.one_in(2);
        while !run.waits() || self.answers.len() as u64 > run.state().used {
            let left = most - run.steps.min(most);
            let budget = match seed.below(4) {
                _ if long => left,
                0 => seed.below(3) as u64,
                1 => seed.below(12) as u64,
                2 => left,
                _ => seed.below(200) as u64,
            };
            let size = if long { 6 * own.end.events.len() + 12 } else { seed.below(60) };
            self.call(&mut run, budget.min(left), size);
            met(run.number);
            match run.on_the_way(&own.states[state..]) {
                Some(further) => state += further,
                None => run.agrees = false,
            }
            if !matches!(run.number, 22 | 35 | 36) || !run.agrees || run.steps >= most {
                break;
            }
        }
        run.agrees &= ends(&mut run, own, most);
        run
    }

    /// One call. A walk that waits takes its answer in a paused one.
    fn call(&self, run: &mut Run, budget: u64, size: usize) {
        let (tokens, answers) = (bytes(self.tokens), bytes(self.answers));
        let inputs = Inputs { table: self.table, tokens: &tokens, answers: &answers };
        let answer = run.waits().then(|| self.answers[run.state().used as usize]);
        let paused = (self.pauses || answer.is_some()).then_some(answer);
        run.go(self.side, inputs, paused, budget, size);
    }
}

/// Whether a walk that has come so far ends as the rules' own does.
fn ends(run: &mut Run, own: &Own, most: u64) -> bool {
    let wanted: Vec<u8> = own.end.events.iter().flat_map(|event| bytes(event)).collect();
    let Some(reason) = own.end.reason else {
        return matches!(run.number, 22 | 35 | 36) && wanted.starts_with(&run.events);
    };
    let mut agrees = run.number == reason;
    if run.number == 22 && run.events.is_empty() {
        // It has waited from the start.
        agrees = reason == 34;
    } else if run.number == 22 {
        // It waits for the answer past the last; only the operation's event is there already.
        let event = run.events.split_off(run.events.len().saturating_sub(6));
        agrees = reason == 34 && event.len() == 6 && event[..2] == [0, 3];
    }
    let walk = run.state();
    agrees
        && run.events == wanted
        && run.steps <= most
        && (walk.read, walk.used, walk.allowance) == (own.end.read, own.end.used, own.end.allowance)
}
