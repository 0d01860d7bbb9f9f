//! Long walks to be timed: a scanner, choices of many labels, calls, and a page breaker.

use crate::processor::{Answer, MAX_TABLE, process};
use crate::random::Rng;
use crate::tables::{Action, Actions, Choice, Rule, Selector, assemble, bytes};

/// A table, and what it is walked with.
pub struct Work {
    pub name: &'static str,
    pub table: Vec<u8>,
    pub tokens: Vec<u8>,
    pub answers: Vec<u8>,
}

/// The four walks.
pub fn works() -> [Work; 4] {
    [scanner(), choices(), calls(), pages()]
}

fn choice(selector: Selector, alternatives: Vec<(Vec<u16>, Actions)>, otherwise: Option<Actions>) -> Action {
    Action::Choice(Choice { selector, alternatives, otherwise })
}

fn procedure(body: Actions) -> Rule {
    Rule { procedure: true, body }
}

/// A scanner: letters, digits and blanks in cycles, an output token for each word, an error for anything else.
fn scanner() -> Work {
    let (end, blank, letter, digit, sign, illegal) = (0, 1, 2, 3, 4, 5);
    let again = |labels: Vec<u16>| Action::Cycle(vec![choice(Selector::Input, vec![(labels, vec![])], Some(vec![Action::Exit]))]);
    let body = vec![Action::Cycle(vec![choice(
        Selector::Input,
        vec![
            (vec![blank], vec![]),
            (vec![letter], vec![again(vec![letter, digit]), Action::Emit(20)]),
            (vec![digit], vec![again(vec![digit]), Action::Emit(21)]),
            (vec![sign], vec![Action::Emit(22)]),
            (vec![illegal], vec![Action::Error(10)]),
            (vec![end], vec![Action::Exit]),
        ],
        Some(vec![Action::Error(11), Action::Any]),
    )])];
    let mut rng = Rng::new(1, 1);
    let mut tokens = Vec::new();
    while tokens.len() < 200_000 {
        let (kind, length) = match rng.below(16) {
            0..=5 => (letter, rng.within(1, 8)),
            6..=7 => (digit, rng.within(1, 5)),
            8..=9 => (sign, 1),
            10 => (illegal, 1),
            _ => (blank, rng.within(1, 3)),
        };
        tokens.extend(std::iter::repeat_n(kind, length));
    }
    tokens.push(end);
    Work { name: "scanner", table: bytes(&assemble(&[procedure(body)], 1)), tokens: bytes(&tokens), answers: vec![] }
}

/// Choices in choices, with 40 to 64 labels each: by token, by token again, and by a rule's value.
fn choices() -> Work {
    let split = |count: u16, parts: u16| -> Vec<Vec<u16>> {
        (0..parts).map(|part| (0..count).filter(|label| label % parts == part).collect()).collect()
    };
    let inner = |part: u16| {
        let count = 40 + 8 * part;
        let alternatives = split(count, 4).into_iter().map(|labels| (labels, vec![])).collect();
        choice(Selector::Input, alternatives, Some(vec![Action::Any]))
    };
    let by_value = |count: u16| {
        let alternatives = split(count, 2).into_iter().map(|labels| (labels, vec![])).collect();
        choice(Selector::Rule(1), alternatives, None)
    };
    let outer = split(56, 4).into_iter().zip(0..);
    let alternatives = outer.map(|(labels, part)| (labels, vec![inner(part), by_value(64)])).collect();
    let body = vec![Action::Cycle(vec![choice(Selector::Input, alternatives, Some(vec![Action::Exit]))])];
    let value = Rule { procedure: false, body: vec![Action::Value(47)] };
    let mut rng = Rng::new(2, 1);
    let mut tokens = Vec::new();
    for _ in 0..60_000 {
        tokens.push(rng.below(56) as u16);
        tokens.push(rng.below(66) as u16);
    }
    Work { name: "choices", table: bytes(&assemble(&[procedure(body), value], 1)), tokens: bytes(&tokens), answers: vec![] }
}

/// A cycle of calls, two levels deep, with a token read a round.
fn calls() -> Work {
    let body = vec![Action::Cycle(vec![
        Action::Call(1),
        Action::Call(1),
        choice(Selector::Input, vec![(vec![1], vec![])], Some(vec![Action::Exit])),
    ])];
    let rules = [procedure(body), procedure(vec![Action::Call(2), Action::Call(2), Action::Call(2)]), procedure(vec![])];
    Work { name: "calls", table: bytes(&assemble(&rules, 1)), tokens: bytes(&[1; 40_000]), answers: vec![] }
}

/// The blocks of the page breaker's text.
const BLOCKS: usize = 8;

/// The text of a page breaker: a rule for each kind of block, which reads words and asks for room, rules for lines, notes and pages.
fn page_breaker() -> String {
    let each = |part: &dyn Fn(usize) -> String| (0..BLOCKS).map(part).collect::<String>();
    let opened = each(&|i| format!(" open{i}"));
    let kinds = each(&|i| format!(" kind{i}"));
    let blocks = each(&|i| format!("| open{i}: @Block{i} "));
    let rules = each(&|i| {
        let (step, inner) = (["single", "double"][i % 2], (i + 1) % BLOCKS);
        let nested = if i < 4 { format!("| open{inner}: .opened @Plain") } else { String::new() };
        format!(
            "Block{i}: Begin(kind{i}) @Leading
                {{[
                    | word, number: [ Room({step}) | fits: Place({step}) | full: @Line Place({step}) ]
                    | space: [ @Fits | fits: Space | full: @Line ]
                    | hyphen: Hyphen(kind{i}) [ | lineEnd: Join | *: Place(single) ]
                    | lineEnd: Space
                    | note: @Note
                    {nested}
                    | close: >
                    | *: #unexpected ?
                ]}}
                Finish(kind{i}) .placed;\n"
        )
    });
    format!(
        "input: word number space hyphen lineEnd note close endOfBook {opened};
        output: placed pageTurned opened noted;
        error: unexpected = 10;
        type Fit: fits full;
        type Step: single double;
        type Kind: {kinds};
        mechanism Page: Place(Step) Begin(Kind) Finish(Kind) Hyphen(Kind) Space Join TurnPage Break
            Room(Step) >> Fit Left >> Fit;
        rules
        Book: {{[ {blocks} | lineEnd, space: | endOfBook: > | *: #unexpected ? ]}};
        {rules}
        Plain: {{[ | close: > | word, number: @Word | *: ? ]}};
        Word: [ @Fits | fits: Place(single) | full: @Line ];
        Line: Break [ Left | fits: | full: @Turn ];
        Turn: TurnPage .pageTurned @Leading;
        Leading: Space;
        Note: .noted {{[ | word: @Word | note: > | *: ? ]}};
        Fits >> Fit: [ Room(single) | fits: >> fits | full: [ Left | fits: @Turn >> fits | full: >> full ] ];
        end"
    )
}

/// The tokens of a book of such blocks.
fn book(rng: &mut Rng) -> Vec<u16> {
    let (word, number, space, hyphen, line_end, note, close, end, open) = (0, 1, 2, 3, 4, 5, 6, 7, 8);
    let mut tokens = Vec::new();
    while tokens.len() < 60_000 {
        let block = rng.below(BLOCKS) as u16;
        tokens.push(open + block);
        for _ in 0..rng.within(10, 60) {
            match rng.below(20) {
                0 => tokens.extend([hyphen, line_end]),
                1 => tokens.extend([hyphen, word]),
                2 => tokens.extend([note, word, space, word, note]),
                3 if block < 4 => tokens.extend([open + (block + 1) % BLOCKS as u16, word, space, number, close]),
                4 | 5 => tokens.push(line_end),
                6 => tokens.extend([number, space]),
                _ => tokens.extend([word, space]),
            }
        }
        tokens.extend([close, line_end]);
    }
    tokens.push(end);
    tokens
}

/// A page breaker of about 1,000 words, translated from its text; three of four times there is room.
fn pages() -> Work {
    let table = match process(page_breaker().as_bytes(), MAX_TABLE) {
        Answer::Accepted { table, .. } => table,
        refused => panic!("the page breaker: {refused:?}"),
    };
    let mut rng = Rng::new(3, 1);
    let tokens = book(&mut rng);
    let answers: Vec<u16> = (0..2 * tokens.len()).map(|_| u16::from(rng.once_in(4))).collect();
    Work { name: "pages", table: bytes(&table), tokens: bytes(&tokens), answers: bytes(&answers) }
}
