//! The rules' own walk: over the program as it is written, without a table.

pub mod places;

use crate::processor::{Act, By, Choice, Program};

/// The most calls that may be pending.
pub const MAX_PENDING: usize = 64;

/// The end of a walk: why it stopped, or none where the steps allowed were done.
#[derive(Clone, PartialEq, Eq, Debug)]
pub struct End {
    pub reason: Option<u16>,
    pub events: Vec<[u16; 3]>,
    pub read: u64,
    pub used: u64,
    /// Repairs left.
    pub allowance: u16,
}

/// Where the walk is inside one rule: the actions still to be done, the innermost list last.
#[derive(Clone)]
enum Rest<'a> {
    /// The rest of a list, of a rule or an alternative.
    List(&'a [Act]),
    /// A cycle's body and what is left of it.
    Cycle(&'a [Act], &'a [Act]),
    /// A choice whose rule is being called; its value is still to come.
    Chooses(&'a Choice),
}

/// What is left of a step that a table has begun: nothing, a choice by a value that is there, or one by the next answer, the operation
/// being handed out.
#[derive(Clone, Copy, Default)]
enum Half<'a> {
    #[default]
    None,
    Value(&'a Choice, u16),
    Answer(&'a Choice),
}

struct Walk<'a> {
    program: &'a Program,
    tokens: &'a [u16],
    answers: &'a [u16],
    /// The place, and below it those of the pending calls.
    places: Vec<Vec<Rest<'a>>>,
    half: Half<'a>,
    end: End,
}

/// Walks a program from its first rule's start, at most so many steps.
pub fn walk(program: &Program, tokens: &[u16], answers: &[u16], allowance: u16, steps: usize) -> End {
    Walk::new(program, tokens, answers, allowance).follow(steps, |_| ()).0
}

/// The rules' own walk on its way: its end, its steps, and after each of them events written, tokens read, answers used and repairs left, once each.
pub struct Own {
    pub end: End,
    pub steps: usize,
    pub states: Vec<State>,
}

/// Events written, tokens read, answers used, repairs left.
pub type State = (usize, u64, u64, u16);

impl Own {
    pub fn new(program: &Program, tokens: &[u16], answers: &[u16], allowance: u16, most: usize) -> Own {
        Own::of(Walk::new(program, tokens, answers, allowance), most)
    }

    fn of(walk: Walk, most: usize) -> Own {
        let state = |end: &End| (end.events.len(), end.read, end.used, end.allowance);
        let mut states = vec![state(&walk.end)];
        let look = |end: &End| {
            let state = state(end);
            if states.last() != Some(&state) {
                states.push(state);
            }
        };
        let (end, steps) = walk.follow(most, look);
        Own { end, steps, states }
    }
}

impl<'a> Walk<'a> {
    fn new(program: &'a Program, tokens: &'a [u16], answers: &'a [u16], allowance: u16) -> Walk<'a> {
        let end = End { reason: None, events: Vec::new(), read: 0, used: 0, allowance };
        let places = vec![vec![Rest::List(&program.rules[0].acts[..])]];
        Walk { program, tokens, answers, places, half: Half::None, end }
    }

    /// At most so many steps, looked at after each; with its end, the steps done.
    fn follow(mut self, steps: usize, mut look: impl FnMut(&End)) -> (End, usize) {
        let mut done = 0;
        while done < steps && self.end.reason.is_none() {
            self.end.reason = self.step().err();
            done += 1;
            look(&self.end);
        }
        (self.end, done)
    }

    fn present(&self) -> Option<u16> {
        self.tokens.get(self.end.read as usize).copied()
    }

    fn place(&mut self) -> &mut Vec<Rest<'a>> {
        self.places.last_mut().expect("there is always a place")
    }

    fn event(&mut self, kind: u16, number: u16, parameter: Option<u16>) {
        self.end.events.push([kind, number, parameter.unwrap_or(0)]);
    }

    /// One action, or one end of a list; an error is a stop.
    fn step(&mut self) -> Result<(), u16> {
        match std::mem::take(&mut self.half) {
            Half::None => {}
            Half::Value(choice, value) => return self.choose(choice, Some(value), 32).map(|_| ()),
            Half::Answer(choice) => {
                let answer = self.answer()?;
                return self.choose(choice, Some(answer), 32).map(|_| ());
            }
        }
        let place = self.place();
        let Some(rest) = place.pop() else { return self.back(None) };
        let (act, rest) = match rest {
            Rest::List([]) => return Ok(()),
            Rest::List([act, rest @ ..]) => (act, Rest::List(rest)),
            Rest::Cycle(body, []) => {
                place.push(Rest::Cycle(body, body));
                return Ok(());
            }
            Rest::Cycle(body, [act, rest @ ..]) => (act, Rest::Cycle(body, rest)),
            Rest::Chooses(_) => unreachable!("a choice waits for its rule below the place only"),
        };
        place.push(rest);
        match act {
            Act::Match(token) if self.present() == Some(*token) => self.end.read += 1,
            Act::Match(token) => self.repair(*token)?,
            Act::Any if self.present().is_some() => self.end.read += 1,
            Act::Any => return Err(31),
            Act::Emit(token) => self.event(1, *token, None),
            Act::Signal(error) => self.event(2, *error, None),
            Act::Update(number, parameter) => self.event(3, *number, *parameter),
            Act::Cycle(body) => self.place().push(Rest::Cycle(body, body)),
            Act::Exit => while !matches!(self.place().pop().expect("`>` is in a cycle"), Rest::Cycle(..)) {},
            Act::Call(rule) => return self.call(*rule),
            Act::Return(value) => return self.back(*value),
            Act::Choice(choice) => match &choice.by {
                By::Token => {
                    let token = self.present();
                    match self.choose(choice, token, 30) {
                        Ok(labelled) => self.end.read += u64::from(labelled),
                        Err(_) => {
                            let (labels, acts) = choice.alternatives.first().expect("a choice has an alternative");
                            self.repair(labels[0])?;
                            self.place().push(Rest::List(acts));
                        }
                    }
                }
                By::Rule(rule) => {
                    self.place().push(Rest::Chooses(choice));
                    return self.call(*rule);
                }
                By::Operation(number, parameter) => {
                    let answer = self.answer()?;
                    self.event(3, *number, *parameter);
                    self.choose(choice, Some(answer), 32)?;
                }
            },
        }
        Ok(())
    }

    /// The next answer, which is then used.
    fn answer(&mut self) -> Result<u16, u16> {
        let answer = self.answers.get(self.end.used as usize).copied().ok_or(34u16)?;
        self.end.used = self.end.used.saturating_add(1);
        Ok(answer)
    }

    /// A required token that is not there.
    fn repair(&mut self, token: u16) -> Result<(), u16> {
        self.end.allowance = self.end.allowance.checked_sub(1).ok_or(30u16)?;
        self.event(4, token, None);
        Ok(())
    }

    /// To an alternative; whether it is a labelled one.
    fn choose(&mut self, choice: &'a Choice, value: Option<u16>, stop: u16) -> Result<bool, u16> {
        let labelled = choice.alternatives.iter().find(|(labels, _)| value.is_some_and(|value| labels.contains(&value)));
        let acts = labelled.map(|(_, acts)| acts).or(choice.otherwise.as_ref()).ok_or(stop)?;
        self.place().push(Rest::List(acts));
        Ok(labelled.is_some())
    }

    fn call(&mut self, rule: usize) -> Result<(), u16> {
        if self.places.len() - 1 == MAX_PENDING {
            return Err(33);
        }
        self.places.push(vec![Rest::List(&self.program.rules[rule].acts)]);
        Ok(())
    }

    fn back(&mut self, value: Option<u16>) -> Result<(), u16> {
        if self.places.len() == 1 {
            return Err(0);
        }
        self.places.pop();
        if let Some(Rest::Chooses(choice)) = self.place().last().cloned() {
            self.place().pop();
            self.choose(choice, value, 32)?;
        }
        Ok(())
    }
}

#[cfg(test)]
mod tests {
    use super::*;
    use crate::processor::resolve;

    #[track_caller]
    fn is(text: &str, tokens: &[u16], answers: &[u16], reason: u16, read: u64, used: u64, events: &[[u16; 3]]) {
        let program = resolve(text.as_bytes()).expect("accepted");
        let end = walk(&program, tokens, answers, 0, 10_000);
        assert_eq!(end, End { reason: Some(reason), events: events.to_vec(), read, used, allowance: 0 }, "{text}");
    }

    #[test]
    fn the_papers_cases() {
        is("rules M: ; end", &[], &[], 0, 0, 0, &[]);
        is("input: a; rules M: a; end", &[0], &[], 0, 1, 0, &[]);
        is("input: a; rules M: a; end", &[], &[], 30, 0, 0, &[]);
        is("input: a b; rules M: [ | b: ]; end", &[0], &[], 30, 0, 0, &[]);
        is("input: a b; rules M: [ | b: ]; end", &[1], &[], 0, 1, 0, &[]);
        is("rules M: @M; end", &[], &[], 33, 0, 0, &[]);
        is("rules M: ? ?; end", &[5], &[], 31, 1, 0, &[]);
        let p2 = "input: a b blank illegalChar; error: badChar = 10; rules S: {[ | blank: | illegalChar: #badChar | *: > ]}; end";
        is(p2, &[2, 3, 2, 3, 0], &[], 0, 4, 0, &[[2, 10, 0], [2, 10, 0]]);
        let endless = resolve(b"rules M: { }; end").expect("accepted");
        assert_eq!(walk(&endless, &[], &[], 0, 1_000).reason, None);
    }

    #[test]
    fn choices() {
        let text =
            "output: o; type t: v w x; mechanism m: c>>t d(t)>>t u(t); rules M: [c | w: .o u(x) | x: ] [d(w) | v: | *: .o]; end";
        is(text, &[], &[1, 0], 0, 0, 2, &[[3, 768, 0], [1, 0, 0], [3, 512, 2], [3, 1024, 1]]);
        is(text, &[], &[2, 5], 0, 0, 2, &[[3, 768, 0], [3, 1024, 1], [1, 0, 0]]);
        is(text, &[], &[2], 34, 0, 1, &[[3, 768, 0]]);
        is(text, &[], &[0, 0], 32, 0, 1, &[[3, 768, 0]]);
        let text = "input: a b; output: o p; type t: v w x; rules M: [@N | v: .o | w: @K]; K: { ? [ | a: > | *: >> ] } .p; N>>t: [ | a: >> v | b: { >> w } | *: >> x]; end";
        is(text, &[0], &[], 0, 1, 0, &[[1, 0, 0]]);
        is(text, &[1, 0, 0], &[], 0, 3, 0, &[[1, 1, 0]]);
        is(text, &[1, 0, 1], &[], 0, 2, 0, &[]);
        is(text, &[], &[], 32, 0, 0, &[]);
        is(text, &[1], &[], 31, 1, 0, &[]);
    }

    #[test]
    fn sixty_four_are_pending() {
        // Each token calls M once more; with 65 tokens the last call is one too many.
        let text = "input: a; output: o; rules M: [ | a: @M | *: .o]; end";
        is(text, &[0; 64], &[], 0, 64, 0, &[[1, 0, 0]]);
        is(text, &[0; 65], &[], 33, 65, 0, &[]);
        // The call of a choice rule is one, too.
        let text = "input: a; output: o; type t: v; rules M: [ | a: [@N | v:] | *: .o]; N>>t: @M >> v; end";
        is(text, &[0; 32], &[], 0, 32, 0, &[[1, 0, 0]]);
        is(text, &[0; 33], &[], 33, 33, 0, &[]);
    }
}
