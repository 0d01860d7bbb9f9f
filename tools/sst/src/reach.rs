//! Tokens and answers that lead a walk to a location: found by going on from state to state, each token and each answer being chosen
//! where the walk first looks at it.

use reference::quiet::choice;
use std::collections::{HashSet, VecDeque};

/// The most states that are looked at.
const MOST_STATES: usize = 200_000;
/// The most calls that may be pending.
const MOST_RETURNS: usize = 64;

/// The token that comes next.
#[derive(Clone, Copy, PartialEq, Eq, Hash, Debug)]
enum Next {
    /// Not chosen yet.
    Free,
    /// Looked at, and not read.
    Fixed(u16),
    /// There is none.
    Ended,
}

#[derive(Clone, PartialEq, Eq, Hash, Debug)]
struct State {
    location: usize,
    returns: Vec<usize>,
    result: u16,
    next: Next,
}

#[derive(Clone, Copy, Debug)]
enum Given {
    Token(u16),
    Answer(u16),
}

/// What a walk is given up to a location, where it has no token left.
#[derive(Debug, Default)]
pub struct Lead {
    pub tokens: Vec<u16>,
    pub answers: Vec<u16>,
}

pub struct Reach<'a> {
    pub table: &'a [u16],
    /// The values of the input tokens.
    pub tokens: &'a [u16],
}

type Step = (State, Option<Given>);

impl Reach<'_> {
    /// What leads from the walk's start to a location; nothing where none was found.
    pub fn lead(&self, goal: usize) -> Option<Lead> {
        let start = State { location: 1, returns: Vec::new(), result: 0, next: Next::Free };
        let mut seen = HashSet::from([start.clone()]);
        let mut all: Vec<(State, usize, Option<Given>)> = vec![(start, 0, None)];
        let mut open = VecDeque::from([0]);
        while let Some(i) = open.pop_front() {
            let state = all[i].0.clone();
            if state.location == goal && !matches!(state.next, Next::Fixed(_)) {
                return Some(lead(&all, i));
            }
            for (next, given) in self.steps(&state) {
                if all.len() < MOST_STATES && seen.insert(next.clone()) {
                    open.push_back(all.len());
                    all.push((next, i, given));
                }
            }
        }
        None
    }

    fn word(&self, at: usize) -> usize {
        usize::from(self.table[at - 1])
    }

    fn steps(&self, state: &State) -> Vec<Step> {
        let at = state.location;
        let to = |location: usize| vec![(State { location, ..state.clone() }, None)];
        match self.word(at) {
            1 => to(at + 1 + self.word(at + 1)),
            2 => to(at + 1 - self.word(at + 1)),
            3 => self.read(state, Some(self.table[at]), at + 2),
            4 => self.read(state, None, at + 1),
            5 | 6 | 13 => to(at + 2),
            7 => self.by_token(state),
            8 if state.returns.len() < MOST_RETURNS => {
                let returns = [&state.returns[..], &[at + 2]].concat();
                vec![(State { location: self.word(at + 1), returns, ..state.clone() }, None)]
            }
            9 => {
                let mut back = state.clone();
                back.returns.pop().map(|location| vec![(State { location, ..back }, None)]).unwrap_or_default()
            }
            10 => vec![(State { location: at + 2, result: self.table[at], ..state.clone() }, None)],
            11 => {
                let (labels, default) = choice(self.table, at);
                to(labels.iter().find(|(label, _)| *label == state.result).map_or(default, |(_, to)| *to))
            }
            256..768 => to(at + 1),
            768..1280 => self.by_answer(state),
            _ => Vec::new(),
        }
    }

    /// Reads a token, that one or any.
    fn read(&self, state: &State, wanted: Option<u16>, location: usize) -> Vec<Step> {
        let free = State { location, next: Next::Free, ..state.clone() };
        match state.next {
            Next::Free => {
                let token = wanted.or(self.tokens.first().copied()).unwrap_or(0);
                vec![(free, Some(Given::Token(token)))]
            }
            Next::Fixed(token) if wanted.is_none_or(|wanted| wanted == token) => vec![(free, None)],
            _ => Vec::new(),
        }
    }

    fn by_token(&self, state: &State) -> Vec<Step> {
        let (labels, default) = choice(self.table, state.location);
        let target = |token: u16| labels.iter().find(|(label, _)| *label == token).map(|(_, to)| *to);
        let with = |location: usize, next: Next| State { location, next, ..state.clone() };
        match state.next {
            Next::Ended => vec![(with(default, Next::Ended), None)],
            Next::Fixed(token) => {
                let next = target(token).map_or(with(default, state.next), |to| with(to, Next::Free));
                vec![(next, None)]
            }
            Next::Free => {
                let read = labels.iter().map(|(label, to)| (with(*to, Next::Free), Some(Given::Token(*label))));
                let others = self.tokens.iter().filter(|token| target(**token).is_none());
                let kept = others.map(|token| (with(default, Next::Fixed(*token)), Some(Given::Token(*token))));
                read.chain([(with(default, Next::Ended), None)]).chain(kept).collect()
            }
        }
    }

    /// Past an operation and the choice behind it, by each label and by an answer without one.
    fn by_answer(&self, state: &State) -> Vec<Step> {
        let (labels, default) = choice(self.table, state.location + 1);
        let other = (0..=u16::MAX).find(|answer| !labels.iter().any(|(label, _)| label == answer));
        let answers = labels.iter().copied().chain(other.map(|answer| (answer, default)));
        let step =
            |(answer, location): (u16, usize)| (State { location, result: answer, ..state.clone() }, Some(Given::Answer(answer)));
        answers.map(step).collect()
    }
}

fn lead(all: &[(State, usize, Option<Given>)], end: usize) -> Lead {
    let mut given = Vec::new();
    let mut i = end;
    while i > 0 {
        given.extend(all[i].2);
        i = all[i].1;
    }
    let mut lead = Lead::default();
    for one in given.into_iter().rev() {
        match one {
            Given::Token(token) => lead.tokens.push(token),
            Given::Answer(answer) => lead.answers.push(answer),
        }
    }
    lead
}
