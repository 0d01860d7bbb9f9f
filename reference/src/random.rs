//! Random numbers, and random tables, tokens and walks made from them.

use crate::tables::{Action, Actions, Choice, Rule, Selector, assemble, bytes};
use crate::walker::{self, MAX_RETURNS, Phase, Reason, Walk};

/// splitmix64.
#[derive(Clone)]
pub struct Rng(u64);

impl Rng {
    pub fn new(seed: u64, stream: u64) -> Rng {
        let mut rng = Rng(seed ^ stream.wrapping_mul(0xD1B5_4A32_D192_ED03));
        rng.draw();
        rng
    }

    pub fn draw(&mut self) -> u64 {
        self.0 = self.0.wrapping_add(0x9E37_79B9_7F4A_7C15);
        let mut z = self.0;
        z = (z ^ (z >> 30)).wrapping_mul(0xBF58_476D_1CE4_E5B9);
        z = (z ^ (z >> 27)).wrapping_mul(0x94D0_49BB_1331_11EB);
        z ^ (z >> 31)
    }

    /// A number below `bound`; 0 where that is 0.
    pub fn below(&mut self, bound: usize) -> usize {
        ((u128::from(self.draw()) * bound as u128) >> 64) as usize
    }

    /// A number from `low` to `high`, both included.
    pub fn within(&mut self, low: usize, high: usize) -> usize {
        low + self.below(high.saturating_sub(low) + 1)
    }

    /// True once in `n` times.
    pub fn once_in(&mut self, n: usize) -> bool {
        self.below(n) == 0
    }

    pub fn word(&mut self) -> u16 {
        self.draw() as u16
    }

    /// One of the items, or the default of an empty list.
    pub fn pick<T: Copy + Default>(&mut self, items: &[T]) -> T {
        let index = self.below(items.len());
        items.get(index).copied().unwrap_or_default()
    }
}

/// Tokens of structured programs are below this.
const TOKENS: usize = 6;
/// Values of their types are below this.
const VALUES: usize = 4;

pub fn token(rng: &mut Rng) -> u16 {
    rng.below(TOKENS) as u16
}

/// The bytes of an event buffer: fewer than `small`, some more, or as many as are enough; odd ones too.
pub fn event_bytes(rng: &mut Rng, small: usize, enough: usize) -> usize {
    match rng.below(4) {
        0 => rng.below(small),
        1 => rng.below(40),
        2 => rng.below(200),
        _ => enough,
    }
}

/// An answer; now and then no label has it.
pub fn answer(rng: &mut Rng) -> u16 {
    if rng.once_in(24) { rng.word() } else { rng.below(VALUES + 1) as u16 }
}

/// The rules of a structured program: procedure rules and choice rules, calling each other.
pub fn rules(rng: &mut Rng, size: usize) -> Vec<Rule> {
    let count = rng.within(1, 6);
    let procedures: Vec<bool> = (0..count).map(|i| i == 0 || !rng.once_in(3)).collect();
    let mut fuel = size;
    let mut rules = Vec::new();
    for (i, procedure) in procedures.iter().enumerate() {
        let mut maker = Maker { rng, procedures: &procedures, procedure: *procedure, fuel: &mut fuel };
        let count = if i == 0 { maker.rng.within(3, 8) } else { maker.rng.within(0, 4) };
        let mut body = maker.actions(4, false, count);
        if !procedure {
            let value = rng.below(VALUES) as u16;
            body.push(Action::Value(value));
        }
        rules.push(Rule { procedure: *procedure, body });
    }
    rules
}

struct Maker<'a> {
    rng: &'a mut Rng,
    procedures: &'a [bool],
    procedure: bool,
    fuel: &'a mut usize,
}

impl Maker<'_> {
    fn some(&mut self, depth: usize, cycle: bool) -> Actions {
        let count = self.rng.below(5);
        self.actions(depth, cycle, count)
    }

    fn actions(&mut self, depth: usize, cycle: bool, count: usize) -> Actions {
        let mut actions = Vec::new();
        for _ in 0..count {
            if *self.fuel == 0 {
                break;
            }
            *self.fuel -= 1;
            actions.push(self.action(depth, cycle));
        }
        actions
    }

    fn action(&mut self, depth: usize, cycle: bool) -> Action {
        let kind = self.rng.below(if depth == 0 { 11 } else { 20 });
        match kind {
            0 => Action::Match(token(self.rng)),
            1 => Action::Any,
            2 | 3 => Action::Emit(self.number()),
            4 => Action::Error(self.number()),
            5 => Action::Update(self.operation(256)),
            6 => Action::UpdateWith(self.operation(512), self.number()),
            7 | 8 => match self.rule(true) {
                Some(rule) => Action::Call(rule),
                None => Action::Any,
            },
            9 if cycle => Action::Exit,
            10 if self.rng.once_in(8) => {
                if self.procedure {
                    Action::Return
                } else {
                    Action::Value(self.rng.below(VALUES) as u16)
                }
            }
            9 | 10 => Action::Emit(self.number()),
            11..=13 => {
                let mut body = self.some(depth - 1, true);
                if !self.rng.once_in(4) {
                    body.push(self.choice(depth - 1, true));
                }
                Action::Cycle(body)
            }
            _ => self.choice(depth - 1, cycle),
        }
    }

    fn choice(&mut self, depth: usize, cycle: bool) -> Action {
        let selector = match self.rng.below(6) {
            0 | 1 => Selector::Input,
            2 => Selector::Operation(self.operation(768)),
            3 => Selector::OperationWith(self.operation(1024), self.number()),
            _ => match self.rule(false) {
                Some(rule) => Selector::Rule(rule),
                None => Selector::Input,
            },
        };
        let mut labels: Vec<u16> = match selector {
            Selector::Input => (0..TOKENS as u16).collect(),
            _ => (0..VALUES as u16).collect(),
        };
        for i in (1..labels.len()).rev() {
            labels.swap(i, self.rng.below(i + 1));
        }
        if self.rng.once_in(12) {
            // A long choice table.
            labels.extend((20..20 + self.rng.below(58)).map(|label| label as u16));
        }
        let keep = self.rng.below(labels.len() + 1);
        labels.truncate(keep);
        let mut alternatives = Vec::new();
        while !labels.is_empty() {
            let cut = labels.len() - self.rng.within(1, labels.len().min(4));
            let of = labels.split_off(cut);
            alternatives.push((of, self.some(depth, cycle)));
        }
        let otherwise = (alternatives.is_empty() || self.rng.once_in(2)).then(|| {
            let mut actions = self.some(depth, cycle);
            if cycle && self.rng.once_in(2) {
                actions.push(Action::Exit);
            }
            actions
        });
        Action::Choice(Choice { selector, alternatives, otherwise })
    }

    /// A rule of the sort wanted, if there is one.
    fn rule(&mut self, procedure: bool) -> Option<usize> {
        let of_sort = |i: &usize| self.procedures[*i] == procedure;
        let sort: Vec<usize> = (0..self.procedures.len()).filter(of_sort).collect();
        if sort.is_empty() { None } else { Some(self.rng.pick(&sort)) }
    }

    fn number(&mut self) -> u16 {
        if self.rng.once_in(4) { self.rng.word() } else { self.rng.below(16) as u16 }
    }

    fn operation(&mut self, from: u16) -> u16 {
        from + self.rng.pick(&[0, 0, 1, 2, 3, 255])
    }
}

/// A number that goes wrong where sums, differences or doubles are cut to 16 bits.
pub fn wrapping(rng: &mut Rng) -> u16 {
    let near = rng.below(12) as u16;
    match rng.below(3) {
        0 => u16::MAX - near,
        1 => (1 << 15) + near,
        _ => (1 << 15) - 1 - near,
    }
}

/// The words of a random structured program.
pub fn structured(rng: &mut Rng, size: usize) -> Vec<u16> {
    let rules = rules(rng, size);
    assemble(&rules, 1)
}

/// A structured program with up to four words changed, put in or left out, or cut short.
pub fn damaged(rng: &mut Rng, size: usize) -> Vec<u16> {
    let mut words = structured(rng, size);
    for _ in 0..rng.within(1, 4) {
        damage(rng, &mut words);
    }
    words
}

fn damage(rng: &mut Rng, words: &mut Vec<u16>) {
    let at = rng.below(words.len());
    let size = words.len();
    let value = match rng.below(7) {
        0 => rng.word(),
        1 => rng.below(16) as u16,
        2 => rng.below(size + 3) as u16,
        3 => instruction(rng),
        4 => rng.pick(&[0, 14, 255, 256, 511, 512, 767, 768, 1023, 1024, 1279, 1280]),
        5 => wrapping(rng),
        _ => words.get(at).map_or(0, |word| if rng.once_in(2) { word.wrapping_add(1) } else { word.wrapping_sub(1) }),
    };
    match rng.below(8) {
        0 => words.truncate(at),
        1 => words.insert(at.min(size), value),
        2 if at < size => {
            words.remove(at);
        }
        _ => {
            if let Some(word) = words.get_mut(at) {
                *word = value;
            }
        }
    }
}

/// An instruction number, now and then none.
pub fn instruction(rng: &mut Rng) -> u16 {
    match rng.below(12) {
        0..=6 => rng.within(1, 13) as u16,
        7 => 256 + rng.below(512) as u16,
        8 => 768 + rng.below(512) as u16,
        9 => rng.pick(&[255, 256, 511, 512, 767, 768, 1023, 1024, 1279, 1280]),
        10 => rng.below(300) as u16,
        _ => rng.within(1, 13) as u16,
    }
}

/// A foreign table: random words, most of them small, or instructions without structure.
pub fn foreign(rng: &mut Rng, size: usize) -> Vec<u16> {
    let count = rng.below(size + 1);
    if rng.once_in(2) {
        return unstructured(rng, count);
    }
    let span = rng.pick(&[3, 6, 14, 14, 14, 20]);
    let number = |rng: &mut Rng| match rng.below(16) {
        0..=8 => rng.below(span) as u16,
        9..=11 => rng.below(count + 2) as u16,
        12 | 13 => instruction(rng),
        14 => wrapping(rng),
        _ => rng.word(),
    };
    (0..count).map(|_| number(rng)).collect()
}

/// Instructions with operands that are good more often than not, one after the other; choice tables anywhere.
fn unstructured(rng: &mut Rng, count: usize) -> Vec<u16> {
    let mut words = Vec::new();
    while words.len() < count {
        let at = words.len() + 1;
        let ahead = count.saturating_sub(at);
        let number = instruction(rng);
        words.push(number);
        if matches!(number, 1 | 2 | 7 | 8 | 11) && rng.once_in(20) {
            words.push(wrapping(rng));
            continue;
        }
        match number {
            1 => words.push(rng.below(ahead.min(9) + 1) as u16),
            2 if rng.once_in(8) => words.push((at + rng.below(3)) as u16),
            2 => words.push(rng.below(at.min(9) + 1) as u16),
            3 | 5 | 6 | 10 | 13 => words.push(token(rng)),
            8 => words.push(rng.below(count + 2) as u16),
            7 | 11 => {
                // The table follows at once, behind a few words, or wherever it may be.
                let gap = rng.pick(&[1, 1, 1, 2, 3]);
                if rng.once_in(5) {
                    words.push(rng.below(ahead + 2) as u16);
                    continue;
                }
                words.push(gap as u16);
                words.extend((1..gap).map(|_| instruction(rng)));
                let labels = rng.pick(&[0, 1, 2, 2, 3, 3, 4, 9]);
                words.push(if rng.once_in(20) { wrapping(rng) } else { labels });
                for _ in 0..labels {
                    words.push(token(rng));
                    let here = words.len() + 1;
                    let distance = if rng.once_in(8) { here + rng.below(3) - 1 } else { rng.below(here) };
                    words.push(if rng.once_in(20) { wrapping(rng) } else { distance as u16 });
                }
            }
            _ => {}
        }
    }
    if rng.once_in(2) {
        words.push(9);
    }
    words
}

/// Tokens and answers that lead a walk on through the table: where it stops for want of one, that one is put in.
pub fn lead(rng: &mut Rng, table: &[u8]) -> (Vec<u16>, Vec<u16>) {
    let mut tokens: Vec<u16> = (0..rng.below(24)).map(|_| token(rng)).collect();
    let mut answers: Vec<u16> = (0..rng.below(8)).map(|_| answer(rng)).collect();
    let mut events = vec![0; 6 * 600];
    for _ in 0..rng.below(40) {
        let mut walk = Walk::fresh();
        let done = walker::whole(table, &bytes(&tokens), &bytes(&answers), 500, &mut walk, &mut events);
        let read = (walk.read as usize).min(tokens.len());
        match done.number {
            30 => {
                let operand = 2 * usize::from(walk.location);
                let wanted = table.get(operand..operand + 2).map_or(0, |b| u16::from_be_bytes([b[0], b[1]]));
                tokens.truncate(read);
                tokens.push(wanted);
                tokens.extend((0..rng.below(4)).map(|_| token(rng)));
            }
            31 => tokens.extend((0..rng.within(1, 3)).map(|_| token(rng))),
            34 => answers.extend((0..rng.within(1, 3)).map(|_| answer(rng))),
            _ => break,
        }
    }
    if rng.once_in(3) {
        let keep = rng.below(tokens.len() + 1);
        tokens.truncate(keep);
    }
    if rng.once_in(3) {
        let keep = rng.below(answers.len() + 1);
        answers.truncate(keep);
    }
    (tokens, answers)
}

/// A count near one of the places where counts go wrong.
pub fn count(rng: &mut Rng, len: usize) -> u64 {
    let len = len as u64;
    let near = rng.draw() & 3;
    match rng.below(12) {
        0..=4 => rng.below(len as usize + 2) as u64,
        5 => len.wrapping_add(near).wrapping_sub(2),
        6 => (u64::MAX - 3) + near,
        7 => (1 << 63) + near,
        8 => (1 << 63) - 1 - near,
        9 => (1 << 32) + near,
        10 => (1 << 16) + near,
        _ => rng.draw(),
    }
}

/// A made-up walk: any phase, a location in the table or around its ends, any return locations.
pub fn made_up(rng: &mut Rng, words: usize, tokens: usize, answers: usize) -> Walk {
    let place = |rng: &mut Rng| match rng.below(10) {
        0..=5 => rng.within(1, words.max(1)) as u16,
        6 => rng.below(3) as u16,
        7 => ((words + 2).saturating_sub(rng.below(5))) as u16,
        8 => rng.within(4094, 4099) as u16,
        _ => rng.pick(&[0, 1, 32767, 32768, 65533, 65534, 65535]),
    };
    let phase = match rng.below(8) {
        0..=4 => Phase::Going,
        5 | 6 => Phase::Waiting,
        _ => {
            use Reason::*;
            let reasons = [Returned, OtherToken, NoToken, NoLabel, TooDeep, NoAnswer, Foreign];
            Phase::Stopped(reasons[rng.below(reasons.len())])
        }
    };
    let held = match rng.below(6) {
        0 => 0,
        1 | 2 => rng.below(4),
        3 => rng.within(60, MAX_RETURNS),
        _ => rng.below(MAX_RETURNS + 1),
    };
    let mut returns = [0; MAX_RETURNS];
    for value in returns.iter_mut().take(held) {
        *value = place(rng);
    }
    Walk {
        phase,
        location: place(rng),
        returns,
        held,
        result: if rng.once_in(4) { rng.word() } else { rng.below(8) as u16 },
        parameter: if rng.once_in(2) { rng.word() } else { rng.below(8) as u16 },
        read: count(rng, tokens),
        used: count(rng, answers),
        allowance: if rng.once_in(3) { rng.word() } else { rng.below(4) as u16 },
    }
}
