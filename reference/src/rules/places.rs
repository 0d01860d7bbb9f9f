//! Where a location of a program's table stands in its rules, so that the rules' own walk can begin there. Nothing is looked up in the
//! table: the words of each action are counted.

use super::{End, Half, Own, Rest, Walk};
use crate::processor::{Act, By, Choice, Program, Rule};
use crate::walker::{self, Phase};

/// What stands at a location.
#[derive(Clone, Copy, PartialEq, Eq, Debug)]
pub enum Sort {
    Action,
    /// The jump at the end of a cycle, of an alternative, and a rule's return.
    CycleEnd,
    AlternativeEnd,
    RuleEnd,
    /// Behind setResult, behind setParameter: the step began with the action.
    Returning,
    Given,
    /// The choice instruction, its value or its answer being there, and endChoice.
    Chooses,
    NoLabel,
    /// The required token of an input choice without otherwise, and the jump behind it.
    Required,
    Repaired,
}

/// A place in a rule, and the choice that goes by a value there.
struct Place<'a> {
    sort: Sort,
    rests: Vec<Rest<'a>>,
    choice: Option<&'a Choice>,
}

/// Whether the step that is under way there began with the action itself.
fn begun(sort: Sort) -> bool {
    matches!(sort, Sort::Returning | Sort::Given | Sort::Required)
}

/// The words before the choice instruction.
fn selector_words(by: &By) -> usize {
    match by {
        By::Token => 0,
        By::Operation(_, None) => 1,
        By::Rule(_) => 2,
        By::Operation(_, Some(_)) => 3,
    }
}

/// The words of a choice table.
fn table_words(choice: &Choice) -> usize {
    1 + 2 * choice.alternatives.iter().map(|(labels, _)| labels.len()).sum::<usize>()
}

fn words(act: &Act) -> usize {
    match act {
        Act::Any | Act::Return(None) | Act::Update(_, None) => 1,
        Act::Match(_) | Act::Emit(_) | Act::Signal(_) | Act::Exit | Act::Call(_) => 2,
        Act::Return(Some(_)) | Act::Update(_, Some(_)) => 3,
        Act::Cycle(acts) => all_words(acts) + 2,
        Act::Choice(choice) => {
            let alternatives: usize = choice.alternatives.iter().map(|(_, acts)| all_words(acts) + 2).sum();
            let default = match (&choice.otherwise, &choice.by) {
                (Some(acts), _) => all_words(acts),
                (None, By::Token) => 4,
                (None, _) => 1,
            };
            selector_words(&choice.by) + 2 + alternatives + table_words(choice) + default
        }
    }
}

fn all_words(acts: &[Act]) -> usize {
    acts.iter().map(words).sum()
}

/// The place so many words behind the start of a list, whose end is of that sort.
fn in_list<'a>(acts: &'a [Act], end: Sort, mut at: usize) -> Option<Place<'a>> {
    let frame = |rest: &'a [Act]| if end == Sort::CycleEnd { Rest::Cycle(acts, rest) } else { Rest::List(rest) };
    let mut rest = acts;
    while let [act, behind @ ..] = rest {
        if at == 0 {
            return Some(Place { sort: Sort::Action, rests: vec![frame(rest)], choice: None });
        }
        if at < words(act) {
            let mut place = in_act(act, at)?;
            place.rests.insert(0, frame(if begun(place.sort) && place.rests.is_empty() { rest } else { behind }));
            return Some(place);
        }
        at -= words(act);
        rest = behind;
    }
    (at == 0).then(|| Place { sort: end, rests: vec![frame(rest)], choice: None })
}

/// The place inside an action, so many words behind its first.
fn in_act(act: &Act, at: usize) -> Option<Place<'_>> {
    let alone = |sort| Some(Place { sort, rests: Vec::new(), choice: None });
    match act {
        Act::Return(Some(_)) if at == 2 => alone(Sort::Returning),
        Act::Update(_, Some(_)) if at == 2 => alone(Sort::Given),
        Act::Cycle(acts) => in_list(acts, Sort::CycleEnd, at),
        Act::Choice(choice) => match at.checked_sub(selector_words(&choice.by)) {
            None if matches!(choice.by, By::Operation(..)) && at == 2 => alone(Sort::Given),
            None => None,
            Some(0) => Some(Place { sort: Sort::Chooses, rests: Vec::new(), choice: Some(choice) }),
            Some(at) => in_choice(choice, at.checked_sub(2)?),
        },
        _ => None,
    }
}

/// The place so many words behind the choice instruction and its operand.
fn in_choice(choice: &Choice, mut at: usize) -> Option<Place<'_>> {
    for (_, acts) in &choice.alternatives {
        let size = all_words(acts);
        if at <= size {
            return in_list(acts, Sort::AlternativeEnd, at);
        }
        at = at.checked_sub(size + 2)?;
    }
    at = at.checked_sub(table_words(choice))?;
    let place = |sort, rests| Some(Place { sort, rests, choice: None });
    match (&choice.otherwise, &choice.by, at) {
        (Some(acts), ..) => in_list(acts, Sort::AlternativeEnd, at),
        (None, By::Token, 0) => place(Sort::Required, Vec::new()),
        (None, By::Token, 2) => place(Sort::Repaired, vec![Rest::List(&choice.alternatives[0].1)]),
        (None, By::Token, _) => None,
        (None, ..) => Some(Place { sort: Sort::NoLabel, rests: Vec::new(), choice: Some(choice) }),
    }
}

/// The words of a rule.
fn rule_words(rule: &Rule) -> usize {
    all_words(&rule.acts) + usize::from(!rule.chooses)
}

/// The place at a location, from 1, if one is there and it is not inside an instruction or a choice table.
fn place(program: &Program, location: u16) -> Option<Place<'_>> {
    let mut at = usize::from(location).checked_sub(1)?;
    for rule in &program.rules {
        if at < rule_words(rule) {
            return in_list(&rule.acts, Sort::RuleEnd, at);
        }
        at -= rule_words(rule);
    }
    None
}

/// What stands at a location of a program's table.
pub fn sort(program: &Program, location: u16) -> Option<Sort> {
    place(program, location).map(|place| place.sort)
}

/// The rules' own walk begun where a walk over the table stands, or where the step of the rules began that it is in the middle of; nothing
/// for a walk that no calls lead to.
pub fn own(program: &Program, tokens: &[u16], answers: &[u16], walk: &walker::Walk, most: usize) -> Option<Own> {
    let mut places = Vec::new();
    for location in &walk.returns[..walk.held] {
        let Place { sort, mut rests, choice } = place(program, *location)?;
        match (sort, choice) {
            (Sort::Chooses, Some(choice)) => rests.push(Rest::Chooses(choice)),
            (Sort::Action | Sort::CycleEnd | Sort::AlternativeEnd | Sort::RuleEnd, _) => {}
            _ => return None,
        }
        places.push(rests);
    }
    let Place { rests, choice, .. } = place(program, walk.location)?;
    places.push(rests);
    let half = match (choice, walk.phase) {
        (None, Phase::Waiting) => return None,
        (None, _) => Half::None,
        (Some(choice), Phase::Waiting) => Half::Answer(choice),
        (Some(choice), _) => Half::Value(choice, walk.result),
    };
    let end = End { reason: None, events: Vec::new(), read: walk.read, used: walk.used, allowance: walk.allowance };
    Some(Own::of(Walk { program, tokens, answers, places, half, end }, most))
}
