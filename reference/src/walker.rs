//! The walker, over words of 16 bits in byte slices, high byte first.

/// The bytes of a walk.
pub const WALK_BYTES: usize = 158;
/// The most return locations that a walk holds.
pub const MAX_RETURNS: usize = 64;
/// The words of the largest table; words past them are outside.
pub const MAX_TABLE: usize = 4096;

/// Refused: the call does not fit the walk, or the bytes are no walk.
pub const REFUSED: u16 = 21;
/// The walk waits for an answer.
pub const WAITS: u16 = 22;
/// Fewer than three words are left for an event.
pub const ROOM: u16 = 35;
/// The budget is done.
pub const BUDGET: u16 = 36;

/// Why a walk has stopped; the value is the number that it answers.
#[derive(Clone, Copy, PartialEq, Eq, Debug)]
#[repr(u16)]
pub enum Reason {
    Returned = 0,
    OtherToken = 30,
    NoToken = 31,
    NoLabel = 32,
    TooDeep = 33,
    NoAnswer = 34,
    Foreign = 37,
}

impl Reason {
    /// The reason of a number, if it is one.
    pub fn of(number: u16) -> Option<Reason> {
        Some(match number {
            0 => Reason::Returned,
            30 => Reason::OtherToken,
            31 => Reason::NoToken,
            32 => Reason::NoLabel,
            33 => Reason::TooDeep,
            34 => Reason::NoAnswer,
            37 => Reason::Foreign,
            _ => return None,
        })
    }
}

#[derive(Clone, Copy, PartialEq, Eq, Debug)]
pub enum Phase {
    Going,
    Waiting,
    Stopped(Reason),
}

/// A walk between two calls. The first `held` of `returns` are its return locations, the oldest first; `held` above 64 is read as 64.
#[derive(Clone, Debug)]
pub struct Walk {
    pub phase: Phase,
    pub location: u16,
    pub returns: [u16; MAX_RETURNS],
    pub held: usize,
    pub result: u16,
    pub parameter: u16,
    pub read: u64,
    pub used: u64,
    /// Repairs left.
    pub allowance: u16,
}

/// What a call answers: its number, the events it wrote and the steps it did.
#[derive(Clone, Copy, PartialEq, Eq, Debug)]
pub struct Done {
    pub number: u16,
    pub written: u64,
    pub steps: u64,
}

impl Done {
    fn nothing(number: u16) -> Done {
        Done { number, written: 0, steps: 0 }
    }
}

impl Default for Walk {
    fn default() -> Walk {
        Walk::fresh()
    }
}

impl Walk {
    /// Going on at 1, the rest 0 or empty.
    pub fn fresh() -> Walk {
        Walk::mending(0)
    }

    /// A fresh walk that may repair so many tokens.
    pub fn mending(allowance: u16) -> Walk {
        let returns = [0; MAX_RETURNS];
        Walk { phase: Phase::Going, location: 1, returns, held: 0, result: 0, parameter: 0, read: 0, used: 0, allowance }
    }

    /// The one byte form of the walk.
    pub fn encode(&self) -> [u8; WALK_BYTES] {
        let mut bytes = [0; WALK_BYTES];
        let (phase, reason) = match self.phase {
            Phase::Going => (0, 0),
            Phase::Waiting => (1, 0),
            Phase::Stopped(reason) => (2, reason as u16),
        };
        let held = self.held.min(MAX_RETURNS);
        let words = bytes.as_chunks_mut::<2>().0;
        let head = [phase, reason, self.location, self.result, self.parameter, held as u16, self.allowance];
        for (word, value) in words.iter_mut().zip(head) {
            *word = value.to_be_bytes();
        }
        for (word, value) in words[15..].iter_mut().zip(&self.returns[..held]) {
            *word = value.to_be_bytes();
        }
        bytes[14..22].copy_from_slice(&self.read.to_be_bytes());
        bytes[22..30].copy_from_slice(&self.used.to_be_bytes());
        bytes
    }

    /// The walk that the bytes are the form of, if any.
    pub fn decode(bytes: &[u8]) -> Option<Walk> {
        let bytes: &[u8; WALK_BYTES] = bytes.try_into().ok()?;
        let words = bytes.as_chunks::<2>().0;
        let word = |i: usize| u16::from_be_bytes(words[i]);
        let long = |i: usize| (i..i + 4).fold(0, |sum, i| sum << 16 | u64::from(word(i)));
        let phase = match (word(0), word(1)) {
            (0, 0) => Phase::Going,
            (1, 0) => Phase::Waiting,
            (2, number) => Phase::Stopped(Reason::of(number)?),
            _ => return None,
        };
        let held = usize::from(word(5));
        if held > MAX_RETURNS || words[15 + held..].iter().any(|w| *w != [0, 0]) {
            return None;
        }
        let mut returns = [0; MAX_RETURNS];
        for (value, bytes) in returns.iter_mut().zip(&words[15..]) {
            *value = u16::from_be_bytes(*bytes);
        }
        let (result, parameter, allowance) = (word(3), word(4), word(6));
        Some(Walk { phase, location: word(2), returns, held, result, parameter, read: long(7), used: long(11), allowance })
    }
}

/// A whole call: up to `budget` steps, with all answers beforehand.
pub fn whole(table: &[u8], tokens: &[u8], answers: &[u8], budget: u64, walk: &mut Walk, events: &mut [u8]) -> Done {
    match walk.phase {
        Phase::Waiting => Done::nothing(REFUSED),
        Phase::Stopped(reason) => Done::nothing(reason as u16),
        Phase::Going => run(table, tokens, Some(words(answers)), budget, walk, events, |_| ()),
    }
}

/// A whole call from a fresh walk that shows the location of each instruction that it does.
pub fn visit(
    table: &[u8],
    tokens: &[u8],
    answers: &[u8],
    budget: u64,
    allowance: u16,
    events: &mut [u8],
    look: impl FnMut(usize),
) -> Done {
    run(table, tokens, Some(words(answers)), budget, &mut Walk::mending(allowance), events, look)
}

/// A paused call: an operation that wants an answer is handed out, and its answer is given to the next call.
pub fn paused(table: &[u8], tokens: &[u8], answer: Option<u16>, budget: u64, walk: &mut Walk, events: &mut [u8]) -> Done {
    match (walk.phase, answer) {
        (Phase::Waiting, Some(answer)) => {
            walk.phase = Phase::Going;
            walk.result = answer;
            walk.used = walk.used.saturating_add(1);
        }
        (Phase::Going, None) => {}
        (Phase::Stopped(reason), None) => return Done::nothing(reason as u16),
        _ => return Done::nothing(REFUSED),
    }
    run(table, tokens, None, budget, walk, events, |_| ())
}

type Word = [u8; 2];

fn words(bytes: &[u8]) -> &[Word] {
    bytes.as_chunks().0
}

/// The word at an index that may be past the end, or past what an index can be.
fn word_at(words: &[Word], index: u64) -> Option<u16> {
    let index = usize::try_from(index).ok()?;
    words.get(index).copied().map(u16::from_be_bytes)
}

/// Why a call ends.
enum Halt {
    Budget,
    Room,
    Pause,
    Stop(Reason),
}

const OUTSIDE: Halt = Halt::Stop(Reason::Foreign);

/// Does steps until the call ends, and shows the location of each. The walk is going on.
fn run(
    table: &[u8],
    tokens: &[u8],
    answers: Option<&[Word]>,
    budget: u64,
    walk: &mut Walk,
    events: &mut [u8],
    mut look: impl FnMut(usize),
) -> Done {
    let table = words(table);
    let mut machine = Machine {
        table: &table[..table.len().min(MAX_TABLE)],
        tokens: words(tokens),
        answers,
        events: events.as_chunks_mut().0,
        returns: &mut walk.returns,
        held: walk.held.min(MAX_RETURNS),
        location: usize::from(walk.location),
        result: walk.result,
        parameter: walk.parameter,
        read: walk.read,
        used: walk.used,
        allowance: walk.allowance,
        written: 0,
    };
    let mut steps = 0;
    let mut at = machine.location;
    let halt = loop {
        if steps == budget {
            break Halt::Budget;
        }
        at = machine.location;
        if let Err(halt) = machine.step() {
            break halt;
        }
        look(at);
        steps += 1;
    };
    let (number, phase, counted) = match halt {
        Halt::Budget => (BUDGET, Phase::Going, 0),
        Halt::Room => (ROOM, Phase::Going, 0),
        Halt::Pause => (WAITS, Phase::Waiting, 1),
        Halt::Stop(Reason::Foreign) => (Reason::Foreign as u16, Phase::Stopped(Reason::Foreign), 0),
        Halt::Stop(reason) => (reason as u16, Phase::Stopped(reason), 1),
    };
    if counted == 1 {
        look(at);
    }
    let done = Done { number, written: machine.written as u64, steps: steps + counted };
    // No location above 65,535 is ever gone to.
    let location = machine.location as u16;
    let (held, result, parameter) = (machine.held, machine.result, machine.parameter);
    let (read, used, allowance) = (machine.read, machine.used, machine.allowance);
    walk.phase = phase;
    walk.location = location;
    walk.held = held;
    walk.result = result;
    walk.parameter = parameter;
    walk.read = read;
    walk.used = used;
    walk.allowance = allowance;
    done
}

/// A walk under way, with what it was lent. Without a list of answers it pauses.
struct Machine<'a> {
    table: &'a [Word],
    tokens: &'a [Word],
    answers: Option<&'a [Word]>,
    events: &'a mut [[u8; 6]],
    returns: &'a mut [u16; MAX_RETURNS],
    held: usize,
    location: usize,
    result: u16,
    parameter: u16,
    read: u64,
    used: u64,
    allowance: u16,
    written: usize,
}

impl Machine<'_> {
    /// One instruction; nothing is changed where it halts, but for a pause.
    #[inline(always)]
    fn step(&mut self) -> Result<(), Halt> {
        let instruction = self.word(self.location)?;
        match instruction {
            1 => {
                let distance = self.operand()?;
                self.location = self.inside(self.location + 1 + usize::from(distance))?;
            }
            2 => {
                let distance = self.operand()?;
                self.location = self.inside((self.location + 1).wrapping_sub(usize::from(distance)))?;
            }
            3 => {
                let token = self.operand()?;
                if self.present() == Some(token) {
                    self.read += 1;
                } else if self.allowance > 0 {
                    self.room()?;
                    self.event([4, token, 0]);
                    self.allowance -= 1;
                } else {
                    return Err(Halt::Stop(Reason::OtherToken));
                }
                self.location += 2;
            }
            4 => {
                if self.present().is_none() {
                    return Err(Halt::Stop(Reason::NoToken));
                }
                self.read += 1;
                self.location += 1;
            }
            5 | 6 => {
                let value = self.operand()?;
                self.room()?;
                self.event([instruction - 4, value, 0]);
                self.location += 2;
            }
            7 => {
                let token = self.present();
                let (target, labelled) = self.select(token)?;
                if let Some(token) = token {
                    self.result = token;
                }
                if labelled {
                    self.read += 1;
                }
                self.location = target;
            }
            8 => {
                let target = self.operand()?;
                let target = self.inside(usize::from(target))?;
                let Some(top) = self.returns.get_mut(self.held) else {
                    return Err(Halt::Stop(Reason::TooDeep));
                };
                *top = (self.location + 2) as u16;
                self.held += 1;
                self.location = target;
            }
            9 => {
                let Some(below) = self.held.checked_sub(1) else {
                    return Err(Halt::Stop(Reason::Returned));
                };
                self.location = self.inside(usize::from(self.returns[below]))?;
                self.held = below;
            }
            10 => {
                self.result = self.operand()?;
                self.location += 2;
            }
            11 => (self.location, _) = self.select(Some(self.result))?,
            12 => return Err(Halt::Stop(Reason::NoLabel)),
            13 => {
                self.parameter = self.operand()?;
                self.location += 2;
            }
            256..=767 => {
                self.room()?;
                self.operation(instruction);
            }
            768..=1279 => {
                self.room()?;
                match self.answers {
                    Some(answers) => {
                        let answer = word_at(answers, self.used).ok_or(Halt::Stop(Reason::NoAnswer))?;
                        self.operation(instruction);
                        self.result = answer;
                        self.used += 1;
                    }
                    None => {
                        self.operation(instruction);
                        return Err(Halt::Pause);
                    }
                }
            }
            _ => return Err(OUTSIDE),
        }
        Ok(())
    }

    fn word(&self, location: usize) -> Result<u16, Halt> {
        match self.table.get(location.wrapping_sub(1)) {
            Some(word) => Ok(u16::from_be_bytes(*word)),
            None => Err(OUTSIDE),
        }
    }

    fn operand(&self) -> Result<u16, Halt> {
        self.word(self.location + 1)
    }

    fn inside(&self, location: usize) -> Result<usize, Halt> {
        if location.wrapping_sub(1) < self.table.len() { Ok(location) } else { Err(OUTSIDE) }
    }

    fn present(&self) -> Option<u16> {
        word_at(self.tokens, self.read)
    }

    fn room(&self) -> Result<(), Halt> {
        if self.written < self.events.len() { Ok(()) } else { Err(Halt::Room) }
    }

    /// Writes an event; there is room.
    fn event(&mut self, words: [u16; 3]) {
        if let Some(place) = self.events.get_mut(self.written) {
            let [[a, b], [c, d], [e, f]] = words.map(u16::to_be_bytes);
            *place = [a, b, c, d, e, f];
            self.written += 1;
        }
    }

    fn operation(&mut self, instruction: u16) {
        let parameter = match instruction {
            512..=767 | 1024..=1279 => self.parameter,
            _ => 0,
        };
        self.event([3, instruction, parameter]);
        self.location += 1;
    }

    /// Where the choice at the present location goes by this value, or by none; and whether by a label.
    fn select(&self, value: Option<u16>) -> Result<(usize, bool), Halt> {
        let first = self.location + 1 + usize::from(self.operand()?);
        let last = first + 2 * usize::from(self.word(first)?);
        let labels = self.table.get(first..last).ok_or(OUTSIDE)?.as_chunks::<2>().0;
        let value = value.map(u16::to_be_bytes);
        let taken = value.and_then(|value| labels.iter().position(|[label, _]| *label == value));
        match taken {
            Some(i) => {
                let distance = usize::from(u16::from_be_bytes(labels[i][1]));
                let target = self.inside((first + 2 * i + 2).wrapping_sub(distance))?;
                Ok((target, true))
            }
            None => Ok((self.inside(last + 1)?, false)),
        }
    }
}

#[cfg(test)]
mod tests {
    use super::*;
    use crate::tables::bytes;

    const FILL: u8 = 0xEE;

    /// A call's answer, the events it wrote as words, and the walk after it.
    struct Ran {
        done: Done,
        events: Vec<u16>,
        walk: Walk,
    }

    impl Ran {
        fn is(&self, number: u16, steps: u64) -> &Ran {
            assert_eq!((self.done.number, self.done.steps), (number, steps));
            self
        }

        fn events(&self, events: &[[u16; 3]]) -> &Ran {
            assert_eq!(self.done.written, events.len() as u64);
            assert_eq!(self.events, events.concat());
            self
        }

        /// Location, tokens read, answers used.
        fn at(&self, location: u16, read: u64, used: u64) -> &Ran {
            assert_eq!((self.walk.location, self.walk.read, self.walk.used), (location, read, used));
            self
        }

        fn stopped(&self, reason: Reason) -> &Ran {
            assert_eq!(self.walk.phase, Phase::Stopped(reason));
            self
        }

        fn goes(&self) -> &Ran {
            assert_eq!(self.walk.phase, Phase::Going);
            self
        }

        fn waits(&self) -> &Ran {
            assert_eq!(self.walk.phase, Phase::Waiting);
            self
        }
    }

    /// Runs a call on a copy of the walk, with a buffer of so many bytes, and looks at what it left alone.
    fn ran(walk: &Walk, size: usize, call: impl FnOnce(&mut Walk, &mut [u8]) -> Done) -> Ran {
        let mut walk = walk.clone();
        let mut buffer = vec![FILL; size];
        let done = call(&mut walk, &mut buffer);
        let end = 6 * done.written as usize;
        assert!(buffer[end..].iter().all(|byte| *byte == FILL));
        let again = Walk::decode(&walk.encode()).expect("a walk has a form");
        assert_eq!(again.encode(), walk.encode());
        let events = words(&buffer[..end]).iter().map(|word| u16::from_be_bytes(*word)).collect();
        Ran { done, events, walk }
    }

    fn whole_from(walk: &Walk, size: usize, table: &[u16], tokens: &[u16], answers: &[u16], budget: u64) -> Ran {
        let (table, tokens, answers) = (bytes(table), bytes(tokens), bytes(answers));
        ran(walk, size, |walk, buffer| whole(&table, &tokens, &answers, budget, walk, buffer))
    }

    fn paused_from(walk: &Walk, size: usize, table: &[u16], tokens: &[u16], answer: Option<u16>, budget: u64) -> Ran {
        let (table, tokens) = (bytes(table), bytes(tokens));
        ran(walk, size, |walk, buffer| paused(&table, &tokens, answer, budget, walk, buffer))
    }

    /// From a fresh walk with room enough.
    fn whole_of(table: &[u16], tokens: &[u16], answers: &[u16], budget: u64) -> Ran {
        whole_from(&Walk::fresh(), 600, table, tokens, answers, budget)
    }

    fn paused_of(table: &[u16], tokens: &[u16], budget: u64) -> Ran {
        paused_from(&Walk::fresh(), 600, table, tokens, None, budget)
    }

    #[test]
    fn p1_to_p4() {
        whole_of(&[9], &[], &[], 1).is(0, 1).stopped(Reason::Returned).at(1, 0, 0);
        let p2 = [7, 7, 1, 12, 6, 10, 1, 8, 2, 2, 8, 3, 8, 1, 3, 2, 16, 9];
        // Blank: choice, jump, back; illegal: choice, error, jump, back; end: choice, jump, return.
        let run = whole_of(&p2, &[2, 3, 7], &[], 100);
        run.is(0, 10).events(&[[2, 10, 0]]).at(18, 2, 0);
        assert_eq!(run.walk.result, 7);
        whole_of(&[2, 1, 9], &[], &[], 1000).is(36, 1000).goes().at(1, 0, 0);
        whole_of(&[1, 3, 2, 3, 9], &[], &[], 9).is(0, 2).at(5, 0, 0);
    }

    #[test]
    fn p5() {
        whole_of(&[3, 0, 9], &[0], &[], 2).is(0, 2).stopped(Reason::Returned).at(3, 1, 0);
        whole_of(&[3, 0, 9], &[0], &[], 1).is(36, 1).goes().at(3, 1, 0);
        whole_of(&[3, 0, 9], &[], &[], 1).is(30, 1).stopped(Reason::OtherToken).at(1, 0, 0);
        whole_of(&[3, 0, 9], &[1], &[], 1).is(30, 1).stopped(Reason::OtherToken).at(1, 0, 0);
    }

    #[test]
    fn p6() {
        let table = [7, 3, 1, 8, 1, 1, 4, 3, 1, 2, 8, 9];
        let run = whole_of(&table, &[0], &[], 2);
        run.is(30, 2).stopped(Reason::OtherToken).at(8, 0, 0);
        assert_eq!(run.walk.result, 0);
        let run = whole_of(&table, &[1], &[], 9);
        run.is(0, 3).at(12, 1, 0);
        assert_eq!(run.walk.result, 1);
    }

    #[test]
    fn p7() {
        whole_of(&[8, 1, 9], &[], &[], 64).is(36, 64).goes();
        let run = whole_of(&[8, 1, 9], &[], &[], 65);
        run.is(33, 65).stopped(Reason::TooDeep).at(1, 0, 0);
        assert_eq!((run.walk.held, run.walk.returns), (64, [3; 64]));
    }

    #[test]
    fn number_0_returns() {
        // 1: call 4, 3: return, 4: return.
        whole_of(&[8, 4, 9, 9], &[], &[], 9).is(0, 3).at(3, 0, 0);
        // The return with nothing pending stops a paused walk too.
        paused_of(&[9], &[], 1).is(0, 1);
    }

    #[test]
    fn number_21() {
        let table = [768, 9];
        let going = Walk::fresh();
        let waiting = paused_of(&table, &[], 9).walk;
        let stopped = whole_of(&[9], &[], &[], 9).walk;
        for (run, before) in [
            (paused_from(&going, 60, &table, &[], Some(1), 9), &going),
            (paused_from(&stopped, 60, &table, &[], Some(1), 9), &stopped),
            (paused_from(&waiting, 60, &table, &[], None, 9), &waiting),
            (whole_from(&waiting, 60, &table, &[], &[1], 9), &waiting),
            (whole_from(&waiting, 60, &table, &[], &[1], 0), &waiting),
        ] {
            run.is(21, 0).events(&[]);
            assert_eq!(run.walk.encode(), before.encode());
        }
    }

    #[test]
    fn number_21_for_bytes() {
        let good = whole_of(&[8, 1, 9], &[], &[], 5).walk.encode();
        assert!(Walk::decode(&good).is_some());
        assert!(Walk::decode(&good[..155]).is_none());
        assert!(Walk::decode(&[&good[..], &[0]].concat()).is_none());
        assert!(Walk::decode(&[]).is_none());
        let with = |word: usize, value: u16| {
            let mut bytes = good;
            bytes[2 * word..2 * word + 2].copy_from_slice(&value.to_be_bytes());
            Walk::decode(&bytes).is_some()
        };
        assert!(with(0, 1) && with(0, 2) && !with(0, 3) && !with(0, 256));
        assert!(!with(1, 30) && !with(1, 37));
        assert!(with(5, 64) && !with(5, 65) && !with(5, 4) && with(5, 6));
        assert!(with(6, 9) && with(6, 65535) && with(19, 9) && !with(20, 1) && !with(78, 1));
        let stopped = |reason: u16| {
            let mut bytes = good;
            bytes[1] = 2;
            bytes[2..4].copy_from_slice(&reason.to_be_bytes());
            Walk::decode(&bytes).is_some()
        };
        let reasons: Vec<u16> = (0..=65535).filter(|reason| stopped(*reason)).collect();
        assert_eq!(reasons, [0, 30, 31, 32, 33, 34, 37]);
    }

    #[test]
    fn repairs() {
        let mends = |allowance: u16, size: usize, table: &[u16], tokens: &[u16], budget: u64| {
            whole_from(&Walk::mending(allowance), size, table, tokens, &[], budget)
        };
        let left = |run: &Ran| run.walk.allowance;
        // There: read, also with no room.
        assert_eq!(left(&mends(5, 0, &[3, 7, 9], &[7], 1).is(36, 1).events(&[]).at(3, 1, 0)), 5);
        // Another, and none.
        assert_eq!(left(&mends(5, 6, &[3, 7, 9], &[8], 1).is(36, 1).events(&[[4, 7, 0]]).at(3, 0, 0)), 4);
        assert_eq!(left(&mends(1, 6, &[3, 7, 9], &[], 9).is(0, 2).events(&[[4, 7, 0]]).at(3, 0, 0)), 0);
        // 35 before a repair; 30 with none left, room or not; `?` stays 31.
        assert_eq!(left(&mends(5, 5, &[3, 7, 9], &[8], 9).is(35, 0).goes().events(&[]).at(1, 0, 0)), 5);
        mends(0, 5, &[3, 7, 9], &[8], 9).is(30, 1).events(&[]).at(1, 0, 0);
        assert_eq!(left(&mends(5, 60, &[4, 9], &[], 9).is(31, 1).events(&[])), 5);
        // An input choice without otherwise.
        let choice = [7, 3, 1, 8, 1, 1, 4, 3, 1, 2, 8, 9];
        let run = mends(5, 60, &choice, &[2], 3);
        run.is(36, 3).events(&[[4, 1, 0]]).at(3, 0, 0);
        assert_eq!((left(&run), run.walk.result), (4, 2));
        mends(5, 60, &choice, &[2], 9).is(0, 5).at(12, 0, 0);
        mends(5, 5, &choice, &[2], 9).is(35, 1).at(8, 0, 0);
    }

    #[test]
    fn the_byte_form() {
        let mut fresh = [0; WALK_BYTES];
        fresh[5] = 1;
        assert_eq!(Walk::fresh().encode(), fresh);
        let mut walk = Walk {
            phase: Phase::Stopped(Reason::Foreign),
            location: 0x0102,
            returns: [0xFFFF; MAX_RETURNS],
            held: 2,
            result: 0x0304,
            parameter: 0x0506,
            read: 0x0708_090A_0B0C_0D0E,
            used: u64::MAX - 1,
            allowance: 0x0F10,
        };
        let form = walk.encode();
        assert_eq!(form[..16], [0, 2, 0, 37, 1, 2, 3, 4, 5, 6, 0, 2, 15, 16, 7, 8]);
        assert_eq!(form[16..30], [9, 10, 11, 12, 13, 14, 255, 255, 255, 255, 255, 255, 255, 254]);
        assert_eq!(form[30..36], [255, 255, 255, 255, 0, 0]);
        // More than 64 are read as the first 64.
        walk.held = 1000;
        assert_eq!(walk.encode()[10..12], [0, 64]);
        walk.phase = Phase::Going;
        whole_from(&walk, 60, &[0; 258], &[], &[], 1).is(37, 0);
        let mut deep = walk.clone();
        deep.location = 1;
        whole_from(&deep, 60, &[8, 1, 9], &[], &[], 9).is(33, 1);
    }

    #[test]
    fn number_22_pauses() {
        // setParameter 7, choice operation 1,024, choice by 1: emit 5, else endChoice.
        let table = [13, 7, 1024, 11, 5, 5, 5, 1, 5, 1, 1, 6, 12, 9];
        let first = paused_of(&table, &[], 2);
        first.is(22, 2).waits().events(&[[3, 1024, 7]]).at(4, 0, 0);
        let second = paused_from(&first.walk, 60, &table, &[], Some(1), 0);
        second.is(36, 0).goes().events(&[]).at(4, 0, 1);
        assert_eq!(second.walk.result, 1);
        paused_from(&second.walk, 60, &table, &[], None, 9).is(0, 4).events(&[[1, 5, 0]]).at(14, 0, 1);
        paused_from(&first.walk, 60, &table, &[], Some(2), 9).is(32, 2).events(&[]).at(13, 0, 1);
        // The whole walk: the same events, steps and end.
        whole_of(&table, &[], &[1], 99).is(0, 6).events(&[[3, 1024, 7], [1, 5, 0]]).at(14, 0, 1);
        whole_of(&table, &[], &[2, 9], 99).is(32, 4).events(&[[3, 1024, 7]]).at(13, 0, 1);
    }

    #[test]
    fn numbers_30_and_31() {
        paused_of(&[3, 5, 9], &[4], 9).is(30, 1).at(1, 0, 0);
        paused_of(&[4, 4, 9], &[4], 9).is(31, 2).stopped(Reason::NoToken).at(2, 1, 0);
        whole_of(&[4, 9], &[65535], &[], 9).is(0, 2).at(2, 1, 0);
    }

    #[test]
    fn number_32() {
        // setResult 6, choice without labels.
        let table = [10, 6, 11, 1, 0, 12];
        let run = whole_of(&table, &[], &[], 9);
        run.is(32, 3).stopped(Reason::NoLabel).at(6, 0, 0);
        assert_eq!(run.walk.result, 6);
    }

    #[test]
    fn number_33_after_37() {
        let mut walk = Walk { held: 64, ..Walk::fresh() };
        whole_from(&walk, 60, &[8, 1, 9], &[], &[], 9).is(33, 1);
        for target in [0, 4, 65535] {
            whole_from(&walk, 60, &[8, target, 9], &[], &[], 9).is(37, 0);
        }
        walk.held = 63;
        whole_from(&walk, 60, &[8, 1, 9], &[], &[], 9).is(33, 2);
    }

    #[test]
    fn number_34() {
        let table = [768, 768, 9];
        let run = whole_of(&table, &[], &[5], 9);
        run.is(34, 2).stopped(Reason::NoAnswer).events(&[[3, 768, 0]]).at(2, 0, 1);
        assert_eq!(run.walk.result, 5);
        // Of the same answers, a paused walk waits.
        let first = paused_of(&table, &[], 9);
        paused_from(&first.walk, 60, &table, &[], Some(5), 9).is(22, 1).waits().events(&[[3, 768, 0]]).at(3, 0, 1);
        // The walk's own count of answers says which is next.
        let walk = Walk { used: 1, ..Walk::fresh() };
        let run = whole_from(&walk, 60, &[768, 9], &[], &[4, 8], 9);
        run.is(0, 2).at(2, 0, 2);
        assert_eq!(run.walk.result, 8);
        // A final stop repeats, in a paused call too.
        let stopped = whole_of(&table, &[], &[], 9);
        paused_from(&stopped.walk, 60, &table, &[], None, 9).is(34, 0).events(&[]);
    }

    #[test]
    fn number_35() {
        let fresh = Walk::fresh();
        for instruction in [5, 6] {
            whole_from(&fresh, 5, &[instruction, 7, 9], &[], &[], 9).is(35, 0).goes().events(&[]).at(1, 0, 0);
            whole_from(&fresh, 6, &[instruction, 7, 9], &[], &[], 9).is(0, 2).events(&[[instruction - 4, 7, 0]]);
            whole_from(&fresh, 7, &[instruction, 7, 9], &[], &[], 1).is(36, 1).events(&[[instruction - 4, 7, 0]]);
        }
        // No room comes before no answer, and after the table's faults and the budget.
        whole_from(&fresh, 5, &[768, 9], &[], &[], 9).is(35, 0).goes().events(&[]);
        whole_from(&fresh, 6, &[768, 9], &[], &[], 9).is(34, 1).events(&[]);
        paused_from(&fresh, 4, &[768, 9], &[], None, 9).is(35, 0).goes().events(&[]);
        paused_from(&fresh, 6, &[768, 9], &[], None, 9).is(22, 1).events(&[[3, 768, 0]]);
        whole_from(&fresh, 0, &[5], &[], &[], 9).is(37, 0);
        whole_from(&fresh, 0, &[5, 1], &[], &[], 0).is(36, 0);
        // Called on with another buffer, it goes on.
        let run = whole_from(&fresh, 11, &[256, 512, 9], &[], &[], 9);
        run.is(35, 1).events(&[[3, 256, 0]]);
        whole_from(&run.walk, 11, &[256, 512, 9], &[], &[], 9).is(0, 2).events(&[[3, 512, 0]]);
    }

    #[test]
    fn number_36() {
        whole_of(&[9], &[], &[], 0).is(36, 0).goes();
        whole_of(&[], &[], &[], 0).is(36, 0).goes();
        let stopped = whole_of(&[3, 1], &[], &[], 9).walk;
        whole_from(&stopped, 60, &[3, 1], &[1], &[], 0).is(30, 0).at(1, 0, 0);
        // An operation handed out with the last step waits.
        paused_of(&[768, 9], &[], 1).is(22, 1);
        whole_of(&[768, 9], &[], &[1], 1).is(36, 1).at(2, 0, 1);
    }

    #[test]
    fn number_37() {
        let bad = |table: &[u16]| {
            let run = whole_of(table, &[], &[], 9);
            run.is(37, 0).stopped(Reason::Foreign).events(&[]).at(1, 0, 0);
            let walk = run.walk.encode();
            whole_from(&run.walk, 60, &[9], &[], &[], 9).is(37, 0);
            assert_eq!(walk[4..], Walk::fresh().encode()[4..]);
        };
        bad(&[]);
        for number in [0, 14, 15, 255, 1280, 65535] {
            bad(&[number, 0, 9]);
        }
        for number in [1, 2, 3, 5, 6, 7, 8, 10, 11, 13] {
            bad(&[number]);
        }
        bad(&[1, 2, 9]);
        bad(&[1, 65535, 9]);
        bad(&[2, 2, 9]);
        bad(&[2, 65535, 9]);
        bad(&[8, 0, 9]);
        bad(&[8, 4, 9]);
        // The count, the labels, the default.
        for number in [7, 11] {
            bad(&[number, 1]);
            bad(&[number, 1, 1, 5]);
            bad(&[number, 1, 65535, 5, 1]);
            bad(&[number, 1, 0]);
            bad(&[number, 1, 1, 5, 1]);
        }
        // An instruction at the table's end is done; the next is not.
        whole_of(&[3, 1], &[1], &[], 9).is(37, 1).at(3, 1, 0);
        whole_of(&[256], &[], &[], 9).is(37, 1).at(2, 0, 0).events(&[[3, 256, 0]]);
        // A distance of 0 goes to the word that holds it.
        whole_of(&[1, 0], &[], &[], 9).is(37, 1).at(2, 0, 0);
        whole_of(&[2, 0], &[], &[], 9).is(37, 1).at(2, 0, 0);
        // A return location is tested at the return.
        whole_of(&[1, 3, 9, 9, 8, 3], &[], &[], 9).is(37, 2).at(3, 0, 0);
        let walk = Walk { held: 1, ..Walk::fresh() };
        let run = whole_from(&walk, 60, &[9], &[], &[], 9);
        run.is(37, 0).at(1, 0, 0);
        assert_eq!(run.walk.held, 1);
    }

    #[test]
    fn only_the_way_taken_is_tested() {
        // inputChoice; the label 2 goes outside, the label 3 to location 1.
        let table = [7, 1, 2, 2, 6, 3, 6, 9];
        whole_of(&table, &[3], &[], 1).is(36, 1).at(1, 1, 0);
        let run = whole_of(&table, &[2], &[], 1);
        run.is(37, 0).at(1, 0, 0);
        assert_eq!(run.walk.result, 0);
        // Without otherwise's first word the labels still work, and the default leaves the result.
        whole_of(&table[..7], &[3], &[], 1).is(36, 1).at(1, 1, 0);
        let run = whole_of(&table[..7], &[9], &[], 1);
        run.is(37, 0).at(1, 0, 0);
        assert_eq!(run.walk.result, 0);
        // The whole choice table is tested first.
        whole_of(&table[..6], &[3], &[], 1).is(37, 0);
        // A label to its own distance's location.
        whole_of(&[7, 1, 1, 5, 0, 9], &[5], &[], 1).is(36, 1).at(5, 1, 0);
    }

    #[test]
    fn no_token_matches_no_label() {
        // The result is 5, the label too; with no token left the default is taken.
        let table = [10, 5, 7, 3, 1, 5, 1, 5, 2, 9];
        let run = whole_of(&table, &[], &[], 3);
        run.is(0, 3).at(10, 0, 0);
        assert_eq!(run.walk.result, 5);
        let run = whole_of(&table, &[6], &[], 3);
        run.is(0, 3).at(10, 0, 0);
        assert_eq!(run.walk.result, 6);
    }

    #[test]
    fn parameters() {
        let table = [13, 9, 256, 511, 512, 767, 768, 1023, 1024, 1279, 9];
        let run = whole_of(&table, &[], &[1, 2, 3, 4], 99);
        let numbers = [256, 511, 512, 767, 768, 1023, 1024, 1279];
        run.is(0, 10).at(11, 0, 4).events(&[
            [3, numbers[0], 0],
            [3, numbers[1], 0],
            [3, numbers[2], 9],
            [3, numbers[3], 9],
            [3, numbers[4], 0],
            [3, numbers[5], 0],
            [3, numbers[6], 9],
            [3, numbers[7], 9],
        ]);
        assert_eq!((run.walk.result, run.walk.parameter), (4, 9));
    }

    #[test]
    fn large_counts() {
        let waiting = Walk { phase: Phase::Waiting, used: u64::MAX, ..Walk::fresh() };
        let run = paused_from(&waiting, 60, &[9], &[], Some(3), 9);
        run.is(0, 1).at(1, 0, u64::MAX);
        assert_eq!(run.walk.result, 3);
        for used in [1, 1 << 16, 1 << 32, 1 << 63, u64::MAX] {
            whole_from(&Walk { used, ..Walk::fresh() }, 60, &[768, 9], &[], &[3], 9).is(34, 1).at(1, 0, used);
        }
        for read in [1, 1 << 16, 1 << 32, 1 << 63, u64::MAX] {
            whole_from(&Walk { read, ..Walk::fresh() }, 60, &[4, 9], &[3], &[], 9).is(31, 1).at(1, read, 0);
        }
    }

    #[test]
    fn large_tables() {
        let mut table = vec![0; 4097];
        table[..2].copy_from_slice(&[1, 4094]);
        table[4095] = 4;
        table[4096] = 9;
        // Location 4,096 is the last one, whatever is lent.
        whole_of(&table, &[7], &[], 9).is(37, 2).at(4097, 1, 0);
        table[1] = 4095;
        whole_of(&table, &[7], &[], 9).is(37, 0).at(1, 0, 0);
    }

    #[test]
    fn odd_last_bytes() {
        let mut events = [FILL; 7];
        let mut walk = Walk::fresh();
        let done = whole(&[0, 4, 2, 0, 3, 0, 0], &[0, 1, 0], &[0, 5, 0], 9, &mut walk, &mut events);
        assert_eq!(done, Done { number: 35, written: 1, steps: 2 });
        assert_eq!(events, [0, 3, 2, 0, 0, 0, FILL]);
        let done = whole(&[0, 4, 2, 0, 3, 0, 0], &[0, 1, 0], &[0, 5, 0], 9, &mut walk, &mut events);
        assert_eq!(done, Done { number: 37, written: 1, steps: 1 });
        assert_eq!(events, [0, 3, 3, 0, 0, 0, FILL]);
        assert_eq!((walk.location, walk.used, walk.result), (4, 1, 5));
    }
}
