//! `sst bound`: how many steps suffice for every walk.

use crate::arguments::{Arguments, number};
use crate::check::refusal;
use crate::held::{self, Figure};
use crate::input;
use crate::known::Known;
use crate::message::grouped;
use crate::session::{Done, Session, Status, Trouble};
use crate::source::Source;
use crate::why;

/// The factor of the theorem: a walk holds at most 64 returns.
const FACTOR: u128 = 65;

pub fn run(session: &mut Session, arguments: &Arguments) -> Done {
    let [path, tokens, repairs] = &arguments.words[..] else {
        return Err(Trouble::Usage("bound wants a file, a number of tokens and a number of repairs".to_string()));
    };
    let tokens = number(tokens, u64::MAX, "the number of tokens")?;
    let repairs = number(repairs, u64::from(u16::MAX), "the number of repairs")?;
    let input = input::read(session, path)?;
    let answer = held::ask(session, &input.name, &input.bytes)?;
    let source = Source::new(&input.name, &input.bytes);
    if answer.number != 0 {
        return refusal(session, &source, &answer);
    }
    let most = match answer.figure {
        Figure::Most(most) => u128::from(most),
        Figure::TooLong => {
            session.err(&format!("{}: finishing, but Q is above 4,294,967,295: there is no bound in numbers\n", source.name));
            return Ok(Status::No);
        }
        Figure::None => {
            let told = why::told(&Known::new(&source), &answer)?;
            session.err(&told.lines(&source));
            return Ok(Status::No);
        }
    };
    let steps = FACTOR * most * (u128::from(tokens) + u128::from(repairs) + 1);
    session.out(&format!("{steps}\n"))?;
    session.err(&line(steps, most, tokens, repairs));
    Ok(Status::Yes)
}

fn line(steps: u128, most: u128, tokens: u64, repairs: u64) -> String {
    let budget = if steps <= u128::from(u64::MAX) {
        "a budget of 64 bits holds it"
    } else {
        "this passes 64 bits: call again while the walk answers 36"
    };
    let grouped = grouped(steps);
    format!("65 x {most} x ({tokens} + {repairs} + 1) = {grouped} steps suffice for every such walk; {budget}\n")
}
