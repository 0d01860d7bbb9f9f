//! Entries of operators whose input token, output token or both are at fault. The input token stands before the output token in the
//! text, so it is the word shown wherever it is at fault. Only where both are can that be told from a processor that looks the output
//! token up first.

use super::operators::{SECTION, TOKENS};
use super::{Fault, MARK, Place, base, insert, insert_at, shown};
use crate::precedence::{self, HIGHEST};
use crate::texts::{Seed, Words};
use std::fmt;

/// How a word is declared, where a token of one class is wanted.
#[derive(Clone, Copy, PartialEq, Eq, Debug)]
enum Declared {
    /// In the class wanted.
    Here,
    /// Nowhere: 3.
    Nowhere,
    /// In the other class of tokens: 5.
    OtherTokens,
    /// As something that is no token: 5.
    NoToken,
}

/// A word of an entry, a name or a string.
#[derive(Clone, Copy, PartialEq, Eq, Debug)]
struct Word {
    declared: Declared,
    string: bool,
}

/// All there are: only tokens have strings.
const WORDS: [Word; 7] = [
    Word { declared: Declared::Here, string: false },
    Word { declared: Declared::Here, string: true },
    Word { declared: Declared::Nowhere, string: false },
    Word { declared: Declared::Nowhere, string: true },
    Word { declared: Declared::OtherTokens, string: false },
    Word { declared: Declared::OtherTokens, string: true },
    Word { declared: Declared::NoToken, string: false },
];

impl Word {
    /// The number of its fault, 0 if it has none.
    fn number(self) -> u16 {
        match self.declared {
            Declared::Here => 0,
            Declared::Nowhere => 3,
            Declared::OtherTokens | Declared::NoToken => 5,
        }
    }

    /// The spellings where an input token is wanted. A good one is in no entry before.
    fn as_input(self) -> &'static [&'static str] {
        match (self.declared, self.string) {
            (Declared::Here, false) => &["qp"],
            (Declared::Here, true) => &["'qq'"],
            (Declared::OtherTokens, false) => &["qo", "qr"],
            (Declared::OtherTokens, true) => &["'qz'"],
            _ => self.no_token(),
        }
    }

    /// The spellings where an output token is wanted.
    fn as_output(self) -> &'static [&'static str] {
        match (self.declared, self.string) {
            (Declared::Here, false) => &["qo", "qr"],
            (Declared::Here, true) => &["'qz'"],
            (Declared::OtherTokens, false) => &["qi", "qj", "qp"],
            (Declared::OtherTokens, true) => &["'qs'", "'qq'"],
            _ => self.no_token(),
        }
    }

    /// The spellings of what is a token of neither class: a mechanism's name declares nothing, and a name in quotes is a string.
    fn no_token(self) -> &'static [&'static str] {
        match (self.declared, self.string) {
            (Declared::Nowhere, false) => &["zz", "qm", "left", "right", "operators"],
            (Declared::Nowhere, true) => &["'zz'", "'qi'", "'qo'", "'left'"],
            _ => &["qe", "qt", "qv", "qf", "qd", "Qp", "Qc", "qE", "qX"],
        }
    }
}

/// A sort of entry with a word at fault, and where it stands.
#[derive(Clone, Copy, PartialEq, Eq, Debug)]
pub struct Sort {
    input: Word,
    output: Word,
    /// Behind other entries of its section.
    later_entry: bool,
    /// Behind another section of operators.
    later_section: bool,
}

impl fmt::Display for Sort {
    fn fmt(&self, f: &mut fmt::Formatter) -> fmt::Result {
        let form = |word: Word| if word.string { "string" } else { "name" };
        let order = |later| if later { "later" } else { "first" };
        let (input, output) = (self.input, self.output);
        write!(f, "input {:?} by {}, output {:?} by {}, ", input.declared, form(input), output.declared, form(output))?;
        write!(f, "{} entry, {} section", order(self.later_entry), order(self.later_section))
    }
}

impl Sort {
    /// All of them.
    pub fn all() -> Vec<Sort> {
        let mut all = Vec::new();
        for (input, output) in WORDS.into_iter().flat_map(|input| WORDS.map(|output| (input, output))) {
            if (input.number(), output.number()) == (0, 0) {
                continue;
            }
            for (later_entry, later_section) in [(false, false), (false, true), (true, false), (true, true)] {
                all.push(Sort { input, output, later_entry, later_section });
            }
        }
        all
    }

    /// The numbers of both words, 0 where one is good.
    pub fn numbers(&self) -> [u16; 2] {
        [self.input.number(), self.output.number()]
    }

    /// The section, the word to be shown being marked.
    fn section(&self, seed: &mut Seed) -> String {
        let mut out = String::from("operators qX : ");
        for input in ["qi", "qj"].into_iter().take(if self.later_entry { seed.within(1, 2) } else { 0 }) {
            let output = *seed.of(&["qo", "'qz'", "qr"]);
            out.push_str(&entry(seed, input, output));
        }
        let (input, output) = (*seed.of(self.input.as_input()), *seed.of(self.output.as_output()));
        let [first, second] =
            if self.input.number() > 0 { [MARK.to_string(), String::new()] } else { [String::new(), MARK.to_string()] };
        out.push_str(&entry(seed, &format!("{first}{input}"), &format!("{second}{output}")));
        // What follows may be at fault too.
        for _ in 0..seed.below(3) {
            let (input, output) = (*seed.of(&["zz", "qj", "qo", "qi"]), *seed.of(&["zz", "qi", "qo"]));
            out.push_str(&entry(seed, input, output));
        }
        out + ";"
    }
}

/// An entry at any level; each level has its own side, so that no two entries differ in it.
fn entry(seed: &mut Seed, input: &str, output: &str) -> String {
    let level = seed.within(1, HIGHEST);
    let side = if level.is_multiple_of(2) { "left" } else { "right" };
    format!("{input} {level} {side} {output} ")
}

/// Where a section may be put before or behind the one of `SECTION`.
fn places(words: &Words, behind: bool) -> Vec<usize> {
    let rules = words.iter().position(|word| word == b"rules").unwrap_or(0);
    let own = words.iter().position(|word| word == b"qE").unwrap_or(1) - 1;
    (0..=rules).filter(|at| *at == 0 || words[at - 1] == b";").filter(|at| (*at > own) == behind).collect()
}

/// A program with such an entry, and no fault before it.
pub fn plant(seed: &mut Seed, sort: &Sort) -> Fault {
    let mut words = base(seed);
    insert(seed, &mut words, Place::Sections, TOKENS);
    precedence::put_section(seed, &mut words, SECTION);
    let section = sort.section(seed);
    let at = *seed.of(&places(&words, sort.later_section));
    let marked = insert_at(seed, &mut words, at, &section);
    let [input, output] = sort.numbers();
    shown(seed, if input > 0 { input } else { output }, &words, marked)
}
