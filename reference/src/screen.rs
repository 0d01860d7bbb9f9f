//! Two books open over one table, walked in turn, each with a counter of the steps left to it.

use crate::side::{Inputs, REFUSAL, Reference};
use crate::walker::{self, Done, REFUSED, WALK_BYTES, Walk};

/// The books of a screen.
pub const BOOKS: usize = 2;
/// The bytes of a number of steps.
const STEPS_BYTES: usize = 8;
/// The bytes of a book: its walk, and the steps left to it.
pub const BOOK_BYTES: usize = WALK_BYTES + STEPS_BYTES;
/// The bytes of a screen.
pub const SCREEN_BYTES: usize = BOOKS * BOOK_BYTES;

/// The entries for a screen. A turn is a call of one book, its budget the steps left to it; a paused one reads no answers.
pub trait Screens {
    fn name(&self) -> &'static str;
    fn screen_fresh(&self, screen: &mut [u8], allowances: [u16; BOOKS]) -> u16;
    fn refill(&self, screen: &mut [u8], book: u16, left: u64) -> u16;
    fn turn_whole(&self, inputs: Inputs, book: u16, screen: &mut [u8], events: &mut [u8]) -> Done;
    fn turn_paused(&self, inputs: Inputs, given: u16, answer: u16, book: u16, screen: &mut [u8], events: &mut [u8]) -> Done;
}

/// A book: its walk, or the bytes that are none, and the steps left to it.
struct Book {
    walk: Result<Walk, Vec<u8>>,
    left: u64,
}

impl Book {
    fn decode(bytes: &[u8; BOOK_BYTES]) -> Book {
        let (walk, left) = bytes.split_at(WALK_BYTES);
        let left = left.iter().fold(0, |sum, byte| sum << 8 | u64::from(*byte));
        Book { walk: Walk::decode(walk).ok_or_else(|| walk.to_vec()), left }
    }

    fn encode(&self) -> Vec<u8> {
        let mut bytes = self.walk.as_ref().map_or_else(Vec::clone, |walk| walk.encode().to_vec());
        bytes.extend(self.left.to_be_bytes());
        bytes
    }
}

/// Changes a book of a screen; nothing, where the length is another or there is no such book.
fn change<T>(screen: &mut [u8], book: u16, change: impl FnOnce(&mut Book) -> Option<T>) -> Option<T> {
    let (books, []) = screen.as_chunks::<BOOK_BYTES>() else { return None };
    let mut books: [Book; BOOKS] = books.iter().map(Book::decode).collect::<Vec<_>>().try_into().ok()?;
    let changed = change(books.get_mut(usize::from(book))?)?;
    let bytes: Vec<u8> = books.iter().flat_map(Book::encode).collect();
    screen.copy_from_slice(&bytes);
    Some(changed)
}

/// A turn of a book, by the call that it is.
fn turn(book: u16, screen: &mut [u8], call: impl FnOnce(&mut Walk, u64) -> Done) -> Done {
    let turn = |book: &mut Book| {
        let done = call(book.walk.as_mut().ok()?, book.left);
        book.left -= done.steps;
        Some(done)
    };
    change(screen, book, turn).unwrap_or(REFUSAL)
}

impl Screens for Reference {
    fn name(&self) -> &'static str {
        "rust"
    }

    fn screen_fresh(&self, screen: &mut [u8], allowances: [u16; BOOKS]) -> u16 {
        if screen.len() != SCREEN_BYTES {
            return REFUSED;
        }
        let books = allowances.map(|allowance| Book { walk: Ok(Walk::mending(allowance)), left: 0 });
        screen.copy_from_slice(&books.each_ref().map(Book::encode).concat());
        0
    }

    fn refill(&self, screen: &mut [u8], book: u16, left: u64) -> u16 {
        let refill = |book: &mut Book| {
            book.left = left;
            Some(0)
        };
        change(screen, book, refill).unwrap_or(REFUSED)
    }

    fn turn_whole(&self, inputs: Inputs, book: u16, screen: &mut [u8], events: &mut [u8]) -> Done {
        turn(book, screen, |walk, left| walker::whole(inputs.table, inputs.tokens, inputs.answers, left, walk, events))
    }

    fn turn_paused(&self, inputs: Inputs, given: u16, answer: u16, book: u16, screen: &mut [u8], events: &mut [u8]) -> Done {
        let answer = (given != 0).then_some(answer);
        turn(book, screen, |walk, left| walker::paused(inputs.table, inputs.tokens, answer, left, walk, events))
    }
}

#[cfg(test)]
mod tests {
    use super::*;
    use crate::tables::bytes;

    /// A screen with its table.
    struct Desk {
        table: Vec<u8>,
        screen: Vec<u8>,
    }

    impl Desk {
        fn new(table: &[u16], left: [u64; 2]) -> Desk {
            let mut screen = vec![7; SCREEN_BYTES];
            assert_eq!(Reference.screen_fresh(&mut screen, [0, 1]), 0);
            let mut desk = Desk { table: bytes(table), screen };
            desk.left([0, 0]);
            desk.refill(0, left[0]);
            desk.refill(1, left[1]);
            desk
        }

        #[track_caller]
        fn refill(&mut self, book: u16, left: u64) {
            assert_eq!(Reference.refill(&mut self.screen, book, left), 0);
        }

        /// A whole turn with one token, 4, and room for two events.
        #[track_caller]
        fn whole(&mut self, book: u16, number: u16, written: u64, steps: u64) {
            let inputs = Inputs { table: &self.table, tokens: &[0, 4], answers: &[0, 2] };
            let done = Reference.turn_whole(inputs, book, &mut self.screen, &mut [0; 12]);
            assert_eq!(done, Done { number, written, steps });
        }

        #[track_caller]
        fn paused(&mut self, book: u16, answer: Option<u16>, number: u16, written: u64, steps: u64) {
            let inputs = Inputs { table: &self.table, tokens: &[0, 4], answers: &[] };
            let (given, answer) = (u16::from(answer.is_some()), answer.unwrap_or(0));
            let done = Reference.turn_paused(inputs, given, answer, book, &mut self.screen, &mut [0; 12]);
            assert_eq!(done, Done { number, written, steps });
        }

        #[track_caller]
        fn left(&self, left: [u64; 2]) {
            assert_eq!(self.screen[158..166], left[0].to_be_bytes());
            assert_eq!(self.screen[324..], left[1].to_be_bytes());
        }
    }

    #[test]
    fn each_has_its_own_steps() {
        let mut desk = Desk::new(&[5, 7, 4, 9], [0, 1]);
        desk.whole(0, 36, 0, 0);
        desk.refill(0, 4);
        desk.whole(0, 0, 1, 3);
        desk.left([1, 1]);
        desk.whole(1, 36, 1, 1);
        desk.left([1, 0]);
        // A walk that has stopped answers again, at no cost.
        desk.whole(0, 0, 0, 0);
        desk.whole(1, 36, 0, 0);
        desk.refill(1, 9);
        desk.refill(1, 5);
        desk.left([1, 5]);
        desk.whole(1, 0, 0, 2);
        desk.left([1, 3]);
        // The same walks, but for their allowances.
        let mut wanted = desk.screen[..WALK_BYTES].to_vec();
        wanted[13] = 1;
        assert_eq!(desk.screen[BOOK_BYTES..][..WALK_BYTES], wanted);
    }

    #[test]
    fn answers_and_repairs() {
        let mut desk = Desk::new(&[768, 3, 5, 9], [9, 7]);
        desk.paused(0, None, 22, 1, 1);
        desk.whole(0, 21, 0, 0);
        desk.paused(0, None, 21, 0, 0);
        desk.paused(1, Some(1), 21, 0, 0);
        desk.left([8, 7]);
        desk.paused(0, Some(1), 30, 0, 1);
        desk.whole(1, 0, 2, 3);
        desk.left([7, 4]);
    }

    #[test]
    fn refusals() {
        let mut desk = Desk::new(&[9], [5, 5]);
        for book in [2, 3, 256, 65_535] {
            desk.whole(book, 21, 0, 0);
            desk.paused(book, None, 21, 0, 0);
            assert_eq!(Reference.refill(&mut desk.screen, book, 1), REFUSED);
        }
        // The other book's bytes are kept as they are, and a refill looks at no walk.
        desk.screen[BOOK_BYTES] = 1;
        desk.whole(1, 21, 0, 0);
        desk.left([5, 5]);
        desk.whole(0, 0, 0, 1);
        desk.refill(1, 8);
        desk.left([4, 8]);
        assert_eq!(desk.screen[BOOK_BYTES], 1);
        for size in [0, BOOK_BYTES, SCREEN_BYTES - 1, SCREEN_BYTES + 1, 3 * BOOK_BYTES] {
            let mut screen = vec![0; size];
            let inputs = Inputs { table: &[], tokens: &[], answers: &[] };
            assert_eq!(Reference.screen_fresh(&mut screen, [1, 1]), REFUSED);
            assert_eq!(Reference.refill(&mut screen, 0, 7), REFUSED);
            assert_eq!(Reference.turn_whole(inputs, 0, &mut screen, &mut []), REFUSAL);
            assert_eq!(Reference.turn_paused(inputs, 0, 0, 1, &mut screen, &mut []), REFUSAL);
            assert_eq!(screen, vec![0; size]);
        }
    }
}
