//! Compares the library's turns of two books over one table with those of this crate, turn by turn, and with the calls alone and the rules' own walk.
//!
//! compare_screen [--exact] [--trace] [seeds [first seed]]
//!
//! Built without the library, this crate stands on both sides, and the plain C walker makes the calls alone.
#![forbid(unsafe_code)]

use std::ops::Range;
use std::process::ExitCode;

use reference::ffi;
use reference::files::words;
use reference::harness::{self, Compares, Group, Lent, Tally};
use reference::processor::{Program, resolve};
use reference::programs;
use reference::random::{self, Rng};
use reference::rules::Own;
use reference::screen::{BOOK_BYTES, BOOKS, SCREEN_BYTES, Screens};
use reference::side::{Inputs, Processor, REFUSAL, Reference, Side};
use reference::tables::bytes;
use reference::texts::{self, Seed};
use reference::walker::{Done, Phase, WALK_BYTES, Walk};

const SEEDS: u64 = 1_200;
/// A book whose turn does not end in so many steps is given no more of them.
const BOUND: u64 = 600;
/// The bytes of a buffer that a turn of so many steps does not fill.
const ROOMY: usize = 6 * BOUND as usize + 6;
/// The steps of the rules' own walk: at most 40 for each of a table's.
const RULE_STEPS: usize = 40 * BOUND as usize;

#[derive(Clone, Copy, Debug)]
enum Kind {
    Whole,
    Paused { given: u16, answer: u16 },
}

impl Kind {
    fn name(self) -> &'static str {
        match self {
            Kind::Whole => "whole",
            Kind::Paused { .. } => "paused",
        }
    }
}

/// What a turn is handed, but for the record.
#[derive(Clone, Copy)]
struct Turn<'a> {
    kind: Kind,
    inputs: Inputs<'a>,
    book: u16,
    /// The bytes of the event buffer.
    size: usize,
}

impl Turn<'_> {
    fn go(&self, side: &dyn Screens, screen: &mut [u8], events: &mut [u8]) -> Done {
        match self.kind {
            Kind::Whole => side.turn_whole(self.inputs, self.book, screen, events),
            Kind::Paused { given, answer } => side.turn_paused(self.inputs, given, answer, self.book, screen, events),
        }
    }

    /// The walk call that the turn is.
    fn alone(&self, side: &dyn Side, budget: u64, walk: &mut [u8], events: &mut [u8]) -> Done {
        match self.kind {
            Kind::Whole => side.whole(self.inputs, budget, walk, events),
            Kind::Paused { given, answer } => side.paused(self.inputs, given, answer, budget, walk, events),
        }
    }
}

/// The bytes of a record that are a book's.
fn half(book: u16) -> Range<usize> {
    let from = usize::from(book) * BOOK_BYTES;
    from..from + BOOK_BYTES
}

/// Those that are its walk.
fn walk(book: u16) -> Range<usize> {
    half(book).start..half(book).start + WALK_BYTES
}

/// Those that are its counter.
fn counter(book: u16) -> Range<usize> {
    walk(book).end..half(book).end
}

/// The steps left to a book in a record of the right length.
fn left(screen: &[u8], book: u16) -> u64 {
    screen[counter(book)].iter().fold(0, |sum, byte| sum << 8 | u64::from(*byte))
}

struct Harness {
    other: &'static dyn Screens,
    walker: &'static dyn Side,
    processor: &'static dyn Processor,
    exact: bool,
    tally: Tally,
}

impl Harness {
    /// Compares one turn; what it answers and its event buffer. The record becomes what this crate leaves.
    fn turn(&mut self, rng: &mut Rng, turn: &Turn, screen: &mut [u8]) -> (Done, Vec<u8>) {
        let mut lent = Lent::new(rng, screen, self.exact);
        let mut events = Lent::random(rng, turn.size, self.exact);
        let mut mine = events.before().to_vec();
        let done = turn.go(&Reference, screen, &mut mine);
        let theirs = turn.go(self.other, lent.bytes_mut(), events.bytes_mut());
        let same = done == theirs && lent.is(screen) && events.is(&mine);
        self.tally.expect(same, || {
            let differ = |what, same| if same { String::new() } else { format!("; the {what} differ") };
            let bytes = differ("records", lent.is(screen)) + &differ("event buffers", events.is(&mine));
            format!("{}  rust:  {done:?}\n  other: {theirs:?}{bytes}", shown(turn, lent.before()))
        });
        self.alone(turn, lent.before(), screen, events.before(), &mine, done);
        self.tally.met(format!("{} {}", turn.kind.name(), done.number));
        (done, mine)
    }

    /// A turn answers and writes as its call alone; the steps left to its book fall by those done, and all else in the record is kept.
    fn alone(&mut self, turn: &Turn, before: &[u8], after: &[u8], events: &[u8], written: &[u8], done: Done) {
        let (mut wanted, mut events) = (before.to_vec(), events.to_vec());
        let mut alone = REFUSAL;
        if before.len() == SCREEN_BYTES && usize::from(turn.book) < BOOKS {
            let budget = left(before, turn.book);
            alone = turn.alone(self.walker, budget, &mut wanted[walk(turn.book)], &mut events);
            wanted[counter(turn.book)].copy_from_slice(&budget.wrapping_sub(alone.steps).to_be_bytes());
        }
        let same = done == alone && after == wanted && written == events;
        self.tally.expect(same, || format!("{}  turn:  {done:?}\n  alone: {alone:?}", shown(turn, before)));
    }

    /// Compares one refill: it sets the counter of its book, and nothing else.
    fn refill(&mut self, rng: &mut Rng, screen: &mut [u8], book: u16, left: u64) -> u16 {
        let mut lent = Lent::new(rng, screen, self.exact);
        let number = Reference.refill(screen, book, left);
        let theirs = self.other.refill(lent.bytes_mut(), book, left);
        self.tally.expect(number == theirs && lent.is(screen), || {
            let before = words(lent.before());
            format!("  refill of {book} to {left}: {number} and {theirs}\n  before {before:?}\n  after {:?}", words(lent.bytes()))
        });
        let mut wanted = lent.before().to_vec();
        let fits = screen.len() == SCREEN_BYTES && usize::from(book) < BOOKS;
        if fits {
            wanted[counter(book)].copy_from_slice(&left.to_be_bytes());
        }
        self.tally.expect((number == 0) == fits && screen == wanted, || format!("  refill of {book} to {left}: {number}"));
        self.tally.met(format!("refill {number}"));
        self.tally.met(format!("left {}", sort_of(left)));
        number
    }

    /// Compares one fresh record.
    fn fresh(&mut self, rng: &mut Rng, screen: &mut [u8], allowances: [u16; BOOKS]) -> u16 {
        let mut lent = Lent::new(rng, screen, self.exact);
        let number = Reference.screen_fresh(screen, allowances);
        let theirs = self.other.screen_fresh(lent.bytes_mut(), allowances);
        self.tally.expect(number == theirs && lent.is(screen), || {
            format!("  fresh with {allowances:?}: {number} and {theirs}\n  after {:?}", words(lent.bytes()))
        });
        self.tally.met(format!("fresh {number}"));
        number
    }

    /// A record of the right length with fresh walks.
    fn opened(&mut self, rng: &mut Rng, allowances: [u16; BOOKS]) -> Vec<u8> {
        let mut screen: Vec<u8> = (0..SCREEN_BYTES).map(|_| rng.draw() as u8).collect();
        self.fresh(rng, &mut screen, allowances);
        let mut wanted = vec![0; SCREEN_BYTES];
        for (book, allowance) in (0..).zip(allowances) {
            self.walker.fresh(&mut wanted[walk(book)], allowance);
        }
        self.tally.expect(screen == wanted, || format!("  the fresh record is {screen:?}"));
        screen
    }

    /// A turn after a refill, where one is wanted, or where the steps left would be too many.
    fn turn_in(&mut self, rng: &mut Rng, turn: &Turn, screen: &mut [u8]) -> (Done, Vec<u8>) {
        if let Some(left) = refill(rng, turn, screen) {
            self.refill(rng, screen, turn.book, left);
        }
        self.tally.met(format!("turn with left {}", sort_of(left(screen, turn.book))));
        self.tally.met(format!("buffer of {}", turn.size.min(20)));
        self.turn(rng, turn, screen)
    }
}

/// A refill before a turn, where one is wanted, or where the steps left would be too many.
fn refill(rng: &mut Rng, turn: &Turn, screen: &[u8]) -> Option<u64> {
    let before = left(screen, turn.book);
    let now = if rng.once_in(4) || before == 0 && !rng.once_in(3) { steps(rng) } else { before };
    let endless = now > BOUND && {
        let mut copy = screen.to_vec();
        copy[counter(turn.book)].copy_from_slice(&BOUND.to_be_bytes());
        turn.go(&Reference, &mut copy, &mut [0; ROOMY]).number == 36
    };
    let now = if endless { rng.below(BOUND as usize + 1) as u64 } else { now };
    (now != before).then_some(now)
}

/// What a turn was handed.
fn shown(turn: &Turn, screen: &[u8]) -> String {
    let Turn { kind, inputs, book, size } = turn;
    let list = |name: &str, bytes: &[u8]| format!("  {name} of {} bytes: {:?}\n", bytes.len(), words(bytes));
    let lists = [("table", inputs.table), ("tokens", inputs.tokens), ("answers", inputs.answers), ("record", screen)];
    let lists: String = lists.iter().map(|(name, bytes)| list(name, bytes)).collect();
    format!("  {kind:?} of book {book}, event buffer of {size} bytes\n{lists}")
}

/// The sort of a number of steps.
fn sort_of(left: u64) -> &'static str {
    match left {
        0 => "0",
        1 => "1",
        2..=BOUND => "small",
        u64::MAX => "2^64 - 1",
        _ => "large",
    }
}

/// Steps for a refill.
fn steps(rng: &mut Rng) -> u64 {
    match rng.below(12) {
        0 => 0,
        1 => 1,
        2..=5 => rng.below(12) as u64,
        6..=8 => rng.below(200) as u64,
        9 => u64::MAX,
        10 => rng.pick(&[1 << 16, 1 << 32, (1 << 63) - 1, 1 << 63, u64::MAX - 1]),
        _ => rng.draw(),
    }
}

/// The size of an event buffer.
fn size(rng: &mut Rng) -> usize {
    random::event_bytes(rng, 20, ROOMY)
}

/// What the turns of one book read.
struct Book {
    tokens: Lent,
    answers: Lent,
}

/// A table, and two books to be walked over it.
struct Desk {
    table: Lent,
    books: [Book; BOOKS],
}

/// Words to be lent, now and then with an odd last byte.
fn lent(h: &Harness, rng: &mut Rng, words: &[u16]) -> Lent {
    let mut bytes = bytes(words);
    if rng.once_in(3) {
        bytes.push(rng.pick(&[0, 1, 9, 255]));
    }
    Lent::new(rng, &bytes, h.exact)
}

impl Desk {
    /// A table of any sort, and books that lead on in it.
    fn new(h: &Harness, rng: &mut Rng) -> Desk {
        let table = match rng.below(8) {
            0..=3 => random::structured(rng, 40),
            4 | 5 => random::damaged(rng, 40),
            _ => random::foreign(rng, 60),
        };
        Desk::over(h, rng, &table)
    }

    /// Such books over this table.
    fn over(h: &Harness, rng: &mut Rng, table: &[u16]) -> Desk {
        let books = [(); BOOKS].map(|()| {
            let (tokens, answers) = random::lead(rng, &bytes(table));
            Book { tokens: lent(h, rng, &tokens), answers: lent(h, rng, &answers) }
        });
        Desk { table: lent(h, rng, table), books }
    }

    fn inputs(&self, book: u16) -> Inputs<'_> {
        let Book { tokens, answers } = &self.books[usize::from(book) % BOOKS];
        Inputs { table: self.table.bytes(), tokens: tokens.bytes(), answers: answers.bytes() }
    }

    /// A turn that suits the walk most of the time, and now and then not: an answer too many, or none for a walk that waits.
    fn turn(&self, rng: &mut Rng, book: u16, screen: &[u8]) -> Turn<'_> {
        let inputs = self.inputs(book);
        let walk = screen.get(walk(book)).and_then(Walk::decode);
        let waits = walk.as_ref().is_some_and(|walk| walk.phase == Phase::Waiting);
        let kind = if rng.once_in(2) != waits && !rng.once_in(12) {
            Kind::Whole
        } else {
            let gives = waits != rng.once_in(12);
            let given = if gives { rng.pick(&[1, 1, 1, 2, 256, 32_768, 65_535]) } else { 0 };
            let used = walk.map_or(0, |walk| walk.used as usize);
            let answer = words(inputs.answers).get(used).copied();
            Kind::Paused { given, answer: answer.filter(|_| !rng.once_in(8)).unwrap_or_else(|| random::answer(rng)) }
        };
        Turn { kind, inputs, book, size: size(rng) }
    }

    /// What is only read may not change.
    fn kept(&self, h: &mut Harness) {
        let kept = self.table.kept() && self.books.iter().all(|book| book.tokens.kept() && book.answers.kept());
        h.tally.expect(kept, || "  a table, tokens or answers were written to".to_string());
    }
}

fn allowances(rng: &mut Rng) -> [u16; BOOKS] {
    [(); BOOKS].map(|()| rng.pick(&[0, 0, 0, 1, 2, 30, 256, 65_535]))
}

/// Turns and refills in any order, from fresh walks.
fn orders(h: &mut Harness, rng: &mut Rng) {
    let desk = Desk::new(h, rng);
    let allowances = allowances(rng);
    let mut screen = h.opened(rng, allowances);
    for _ in 0..rng.within(4, 40) {
        let book = rng.below(BOOKS) as u16;
        let turn = desk.turn(rng, book, &screen);
        h.turn_in(rng, &turn, &mut screen);
    }
    desk.kept(h);
}

/// The bytes of a walk: one that no walker made, one with some bytes changed, or none at all.
fn any_walk(rng: &mut Rng, desk: &Desk, bytes: &mut [u8]) {
    let inputs = desk.inputs(0);
    let made = random::made_up(rng, inputs.table.len() / 2, inputs.tokens.len() / 2, inputs.answers.len() / 2);
    bytes.copy_from_slice(&made.encode());
    let held = usize::from(bytes[11]);
    match rng.below(10) {
        0 => bytes[rng.below(2)] ^= 1 << rng.below(8),
        1 => bytes[2 + rng.below(2)] ^= 1 << rng.below(8),
        2 => bytes[10 + rng.below(2)] = rng.draw() as u8,
        3 if held < 64 => bytes[rng.within(30 + 2 * held, WALK_BYTES - 1)] = rng.within(1, 255) as u8,
        4 => bytes.fill_with(|| rng.draw() as u8),
        5 => bytes.fill(rng.pick(&[0, 1, 255])),
        _ => {}
    }
}

/// Records whose halves may be no walk: this one's turn is refused, the other's goes on, and its bytes are kept.
fn halves(h: &mut Harness, rng: &mut Rng) {
    let desk = Desk::new(h, rng);
    for _ in 0..6 {
        let mut screen: Vec<u8> = (0..SCREEN_BYTES).map(|_| rng.draw() as u8).collect();
        for book in 0..BOOKS as u16 {
            any_walk(rng, &desk, &mut screen[walk(book)]);
        }
        for _ in 0..3 {
            let book = rng.below(BOOKS) as u16;
            let is_walk = [book, 1 - book].map(|book| Walk::decode(&screen[walk(book)]).is_some());
            h.tally.met(format!("this half {}, the other {}", is_walk[0], is_walk[1]));
            let turn = desk.turn(rng, book, &screen);
            h.turn_in(rng, &turn, &mut screen);
        }
    }
    desk.kept(h);
}

/// Other lengths, other books, and both at once, with bytes that are walks or not.
fn lengths(h: &mut Harness, rng: &mut Rng) {
    let desk = Desk::new(h, rng);
    let around: Vec<usize> = (SCREEN_BYTES - 9..=SCREEN_BYTES + 9).collect();
    let size = match rng.below(4) {
        0 => SCREEN_BYTES,
        1 => rng.pick(&[0, 1, 8, 157, 158, 159, 166, 316, 324, 498, 640, 664, 65_536 + SCREEN_BYTES]),
        _ => rng.pick(&around),
    };
    let allowances = allowances(rng);
    let mut screen = h.opened(rng, allowances);
    if rng.once_in(3) {
        let book = rng.below(BOOKS) as u16;
        any_walk(rng, &desk, &mut screen[walk(book)]);
    }
    screen.resize(size, rng.pick(&[0, 0, 255]));
    for book in [0, 1, 2, 3, 255, 256, 257, 32_768, 65_535, rng.word()] {
        let left = rng.below(40) as u64;
        h.refill(rng, &mut screen, book, left);
        let turn = desk.turn(rng, book, &screen);
        let (done, _) = h.turn(rng, &turn, &mut screen);
        let (fits, known) = (size == SCREEN_BYTES, usize::from(book) < BOOKS);
        h.tally.expect(fits && known || done == REFUSAL, || format!("  {done:?} for {size} bytes and book {book}"));
        h.tally.met(format!("length {fits}, book {known}"));
        h.tally.met(format!("book {book}"));
    }
    for book in [0, 1, 2, 65_535, rng.word()] {
        let left = steps(rng);
        h.refill(rng, &mut screen, book, left);
    }
    let number = h.fresh(rng, &mut screen, allowances);
    h.tally.expect((number == 0) == (size == SCREEN_BYTES), || format!("  fresh of {size} bytes: {number}"));
    desk.kept(h);
}

/// A book of an accepted program, with the rules' own walk for it and what its turns have written and done.
struct Reader<'a> {
    program: &'a Program,
    tokens: Vec<u16>,
    answers: Vec<u16>,
    allowance: u16,
    own: Own,
    events: Vec<u16>,
    steps: u64,
    number: u16,
    state: usize,
}

impl Reader<'_> {
    fn new<'a>(seed: &mut Seed, program: &'a Program) -> Reader<'a> {
        let (tokens, answers) = texts::feed(seed, program);
        let allowance = if seed.one_in(2) { 0 } else { seed.below(30) as u16 };
        let own = Own::new(program, &tokens, &answers, allowance, RULE_STEPS);
        Reader { program, tokens, answers, allowance, own, events: vec![], steps: 0, number: 36, state: 0 }
    }

    /// A call as in demand 3: whole, or paused with the next answer where the walk waits. None is left where it has ended.
    fn kind(&self, rng: &mut Rng, used: usize) -> Option<Kind> {
        match self.number {
            22 => self.answers.get(used).map(|answer| Kind::Paused { given: 1, answer: *answer }),
            35 | 36 if rng.once_in(2) => Some(Kind::Whole),
            35 | 36 => Some(Kind::Paused { given: 0, answer: rng.word() }),
            _ => None,
        }
    }

    /// Whether the events of all turns so far are a beginning of the rules' own, and the walk's counts theirs on the way.
    fn follows(&mut self, rng: &mut Rng, walk: &Walk) -> bool {
        let waits = self.number == 22;
        let now = (self.events.len() / 3 - usize::from(waits), walk.read, walk.used, walk.allowance);
        let Some(further) = self.own.states[self.state..].iter().position(|state| *state == now) else { return false };
        self.state += further;
        let own = self.own.end.events.as_flattened();
        if waits && walk.used as usize == self.answers.len() {
            // It waits past the last answer: the rules' own events with any one answer more.
            let mut answers = self.answers.clone();
            answers.push(rng.word());
            let more = Own::new(self.program, &self.tokens, &answers, self.allowance, RULE_STEPS);
            return self.own.end.reason.is_none_or(|reason| reason == 34)
                && more.end.events.as_flattened().starts_with(&self.events);
        }
        match (self.own.end.reason, self.number) {
            (_, 22 | 35 | 36) => own.starts_with(&self.events),
            (reason, number) => {
                let end = (self.own.end.events.len(), self.own.end.read, self.own.end.used, self.own.end.allowance);
                reason == Some(number) && own == self.events && now == end
            }
        }
    }
}

/// The table of an accepted program, walked as in demand 3 under any order of turns: each book follows the rules' own walk for it.
fn accepted(h: &mut Harness, rng: &mut Rng) {
    let mut seed = Seed::new(rng.draw());
    let text = if rng.once_in(6) {
        programs::CHOICES.into()
    } else {
        let size = 6 + seed.below(60);
        let words = texts::good(&mut seed, size);
        texts::join(&mut seed, &words)
    };
    let mut table = vec![0; 2 * 4_096];
    let done = h.processor.process(&text, &mut table);
    table.truncate(2 * done.words as usize);
    let Ok(program) = resolve(&text) else { return };
    let mut readers = [(); BOOKS].map(|()| Reader::new(&mut seed, &program));
    let mut screen = h.opened(rng, [readers[0].allowance, readers[1].allowance]);
    for _ in 0..60 {
        let book = rng.below(BOOKS) as u16;
        let reader = &mut readers[usize::from(book)];
        let Some(used) = Walk::decode(&screen[walk(book)]).map(|walk| walk.used as usize) else { break };
        let Some(kind) = reader.kind(rng, used) else { continue };
        if reader.own.end.reason.is_none() {
            // The rules' own walk was followed no further.
            let left = BOUND.saturating_sub(reader.steps).min(rng.below(60) as u64);
            h.refill(rng, &mut screen, book, left);
        }
        let (tokens, answers) = (bytes(&reader.tokens), bytes(&reader.answers));
        let inputs = Inputs { table: &table, tokens: &tokens, answers: &answers };
        let turn = Turn { kind, inputs, book, size: size(rng) };
        let (done, events) =
            if reader.own.end.reason.is_none() { h.turn(rng, &turn, &mut screen) } else { h.turn_in(rng, &turn, &mut screen) };
        reader.events.extend(words(&events).iter().take(3 * done.written as usize));
        reader.steps += done.steps;
        reader.number = done.number;
        let follows = Walk::decode(&screen[walk(book)]).is_some_and(|walk| reader.follows(rng, &walk));
        let (own, events) = (&reader.own.end, &reader.events);
        h.tally.expect(follows, || {
            let rules = format!("  rules: {own:?}\n  turns of book {book}: {} with {events:?}\n", done.number);
            format!("{rules}{}  text \"{}\"", shown(&turn, &screen), text.escape_ascii())
        });
        if done.number == 22 && reader.answers.len() as u64 == own.used {
            h.tally.met("waits past the last answer");
        }
        h.tally.met(format!("program {}", done.number));
    }
}

/// An item of a run, with all that is handed in.
enum Item<'a> {
    /// A turn with its event buffer.
    Turn(Turn<'a>, Vec<u8>),
    /// A refill of a book.
    Refill(u16, u64),
}

impl Item<'_> {
    /// What the item answers, and what it leaves in its event buffer.
    fn go(&self, side: &dyn Screens, screen: &mut [u8]) -> (Done, Vec<u8>) {
        match self {
            Item::Turn(turn, events) => {
                let mut events = events.clone();
                (turn.go(side, screen, &mut events), events)
            }
            Item::Refill(book, left) => (Done { number: side.refill(screen, *book, *left), written: 0, steps: 0 }, vec![]),
        }
    }
}

/// The next items of a book: a turn, and a refill before it where one is wanted.
fn items<'a>(rng: &mut Rng, desk: &'a Desk, book: u16, screen: &[u8]) -> Vec<Item<'a>> {
    let turn = desk.turn(rng, book, screen);
    let events = (0..turn.size).map(|_| rng.draw() as u8).collect();
    let refill = refill(rng, &turn, screen).map(|left| Item::Refill(book, left));
    refill.into_iter().chain([Item::Turn(turn, events)]).collect()
}

/// Two runs with the same items of one book, mixed in any way with other items of the other book, whose bytes differ too: the same answers, events and
/// bytes of this one.
fn side_by_side(h: &mut Harness, rng: &mut Rng) {
    let desk = Desk::new(h, rng);
    let others = [(); 2].map(|()| Desk::over(h, rng, &words(desk.table.bytes())));
    let (book, other) = if rng.once_in(2) { (0, 1) } else { (1, 0) };
    let mut screens = [(); 2].map(|()| {
        let mut screen: Vec<u8> = (0..SCREEN_BYTES).map(|_| rng.draw() as u8).collect();
        any_walk(rng, &desk, &mut screen[walk(other)]);
        screen
    });
    let own = if rng.once_in(4) {
        screens[0][half(book)].to_vec()
    } else {
        [&Walk::mending(allowances(rng)[0]).encode()[..], &[0; 8]].concat()
    };
    screens.iter_mut().for_each(|screen| screen[half(book)].copy_from_slice(&own));
    for _ in 0..rng.within(4, 16) {
        for (screen, desk) in screens.iter_mut().zip(&others) {
            for _ in 0..rng.below(4) {
                let which = if rng.once_in(12) { rng.word().max(2) } else { other };
                let items = if which == other { items(rng, desk, other, screen) } else { vec![Item::Refill(which, rng.draw())] };
                items.iter().for_each(|item| _ = item.go(h.other, screen));
            }
        }
        for item in items(rng, &desk, book, &screens[0]) {
            let [first, second] = screens.each_mut().map(|screen| item.go(h.other, screen));
            let same = first == second && screens[0][half(book)] == screens[1][half(book)];
            h.tally.expect(same, || {
                let [a, b] = screens.each_ref().map(|screen| words(screen));
                format!("  book {book} in two runs: {:?} and {:?}\n  records {a:?}\n  and {b:?}", first.0, second.0)
            });
            h.tally.met(format!("in two runs {}", first.0.number));
        }
        let differ = screens[0][half(other)] != screens[1][half(other)];
        h.tally.met(format!("the other half differs {differ}"));
    }
}

impl Compares for Harness {
    type Source = Rng;

    const GROUPS: &'static [Group<Harness>] = &[
        ("turns and refills in any order", orders, 20),
        ("halves that are no walk", halves, 10),
        ("other lengths and books", lengths, 10),
        ("accepted programs against the rules' own walk", accepted, 12),
        ("two runs side by side", side_by_side, 20),
    ];

    fn tally(&mut self) -> &mut Tally {
        &mut self.tally
    }

    fn report(&mut self, least: u64) {
        self.tally.demand_numbers(least, "whole", &[0, 21, 30, 31, 32, 33, 34, 35, 36, 37]);
        self.tally.demand_numbers(least, "paused", &[0, 21, 22, 30, 31, 32, 33, 34, 35, 36, 37]);
        self.tally.demand_numbers(least, "refill", &[0, 21]);
        self.tally.demand_numbers(least, "fresh", &[0, 21]);
        self.tally.demand_numbers(least, "program", &[0, 22, 30, 31, 32, 33, 34, 35, 36]);
        self.tally.demand_numbers(least, "book", &[0, 1, 2, 65_535]);
        self.tally.demand(least, (0..=20).map(|size| format!("buffer of {size}")));
        let sorts = ["0", "1", "small", "large", "2^64 - 1"];
        self.tally.demand(least, sorts.map(|sort| format!("left {sort}")));
        self.tally.demand(least, sorts.map(|sort| format!("turn with left {sort}")));
        let both = [(true, true), (true, false), (false, true), (false, false)];
        self.tally.demand(least, both.map(|(this, other)| format!("this half {this}, the other {other}")));
        self.tally.demand(least, both.map(|(length, book)| format!("length {length}, book {book}")));
        self.tally.demand(least, ["waits past the last answer"]);
        self.tally.demand_numbers(least, "in two runs", &[0, 21, 22, 30, 31, 32, 33, 34, 35, 36, 37]);
        self.tally.demand(least, ["the other half differs true"]);
    }
}

fn main() -> ExitCode {
    harness::main("compare_screen", SEEDS, |exact| {
        let h = Harness {
            other: ffi::screens().unwrap_or(&Reference),
            walker: ffi::library().unwrap_or(&ffi::Plain),
            processor: ffi::processor().unwrap_or(&Reference),
            exact,
            tally: Tally::default(),
        };
        println!("rust against {}, calls alone of {}", h.other.name(), h.walker.name());
        h
    })
}
