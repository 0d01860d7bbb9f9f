//! Good programs with one fault planted in them, so that number and word are known beforehand.

pub mod entries;
pub mod operators;

use crate::processor::{Answer, MAX_TABLE, process};
use crate::texts::{Seed, VOCABULARY, Words, good, placed, spelled};

/// A text with one fault: its number and the part at fault.
pub struct Fault {
    pub number: u16,
    pub text: Vec<u8>,
    pub start: usize,
    pub len: usize,
}

/// What the planted parts refer to: sections before `rules`, and rules before `end`.
const SECTIONS: &str = "input : qi 'qs' qj ; output : qo 'qz' ; error : qe ; type qt : qv qw ; type qu : qx ;
    mechanism qm : qf qg ( qt ) qc >> qt qd ( qt ) >> qt ;";
const RULES: &str = "Qp : ; Qc >> qt : >> qv ;";

/// Where a part is planted.
#[derive(Clone, Copy)]
enum Place {
    /// Before `rules`.
    Sections,
    /// Before `end`.
    Rules,
    /// In a list of actions: a procedure rule of its own.
    Procedure,
    /// The same in a choice rule of type qt, which returns behind it.
    Chooser,
}

/// The number, the place and the part; the word behind the mark is at fault. LONG is a name of 33 bytes.
type Part = (u16, Place, &'static str);
/// No word of a good program begins with it.
const MARK: char = '~';

const PARTS: [Part; 139] = [
    (2, Place::Sections, "input : ~;"),
    (2, Place::Sections, "input ~qk : ;"),
    (2, Place::Sections, "output ~input : qk ;"),
    (2, Place::Sections, "input output ~error : qk ;"),
    (2, Place::Sections, "error : qk ~'qk' ;"),
    (2, Place::Sections, "type qk ~qk : ql ;"),
    (2, Place::Sections, "type ~: ql ;"),
    (2, Place::Sections, "type qk : ql ~'ql' ;"),
    (2, Place::Sections, "mechanism qn : qk ~= 3 ;"),
    (2, Place::Sections, "mechanism qn : qk ~'qk' ;"),
    (2, Place::Sections, "mechanism qn : qk ( ~) ;"),
    (2, Place::Sections, "mechanism qn : qk ( ~'qk' ) ;"),
    (2, Place::Sections, "mechanism qn : qk >> ~'qk' ;"),
    (2, Place::Sections, "mechanism qn : qk >> qt ~( qt ) ;"),
    (2, Place::Sections, "mechanism ~'qn' : qk ;"),
    (2, Place::Sections, "input : qk = ~qk ;"),
    (2, Place::Sections, "input : qk = 70 ~'qk' ;"),
    (2, Place::Sections, "input : qk = 70 ~= 71 ;"),
    (2, Place::Sections, "input : qk ~, ql ;"),
    (2, Place::Sections, "input : qk ~end ;"),
    (2, Place::Sections, "~qk : ql ;"),
    (2, Place::Sections, "~LONG : ql ;"),
    (2, Place::Sections, "input : qk ; ~;"),
    (2, Place::Rules, "Q ~;"),
    (2, Place::Rules, "Q >> ~: ;"),
    (2, Place::Rules, "Q >> ~'qt' : ;"),
    (2, Place::Rules, "~'Q' : ;"),
    (2, Place::Rules, "~70 : ;"),
    (2, Place::Procedure, "[ ~]"),
    (2, Place::Procedure, "[ @Qc ~]"),
    (2, Place::Procedure, "[ qi ~: ]"),
    (2, Place::Procedure, "[ ~'qs' | * : ]"),
    (2, Place::Procedure, "[ @ ~'qs' | * : ]"),
    (2, Place::Procedure, "[ | * : ~| qi : ]"),
    (2, Place::Procedure, "[ | qi , ~* : ]"),
    (2, Place::Procedure, "[ | * ~, qi : ]"),
    (2, Place::Procedure, "[ | qi , ~: ]"),
    (2, Place::Procedure, "[ | qi ~; ]"),
    (2, Place::Procedure, "[ | qi : ~}"),
    (2, Place::Procedure, "{ qi ~]"),
    (2, Place::Procedure, "{ qi ~| ? }"),
    (2, Place::Procedure, "{ ~; }"),
    (2, Place::Procedure, "~}"),
    (2, Place::Procedure, "~]"),
    (2, Place::Procedure, "~( qv )"),
    (2, Place::Procedure, ". ~?"),
    (2, Place::Procedure, "# ~70"),
    (2, Place::Procedure, "@ ~'qs'"),
    (2, Place::Procedure, "@ Qp ~( qv )"),
    (2, Place::Procedure, ". qo ~( qv )"),
    (2, Place::Procedure, "# qe ~( qv )"),
    (2, Place::Procedure, "qg ( ~)"),
    (2, Place::Procedure, "qg ( qv ~qw )"),
    (2, Place::Procedure, "~70"),
    (2, Place::Procedure, "~*"),
    (2, Place::Chooser, ">> qv ~( qv )"),
    (3, Place::Sections, "mechanism qn : qk ( ~zz ) ;"),
    (3, Place::Sections, "mechanism qn : qk >> ~zz ;"),
    (3, Place::Sections, "mechanism qn : qk ( qt ) >> ~zz ;"),
    (3, Place::Sections, "mechanism qn : qk ( ~qz ) ; type qz : ql ;"),
    (3, Place::Sections, "mechanism qn : qk >> ~qm ;"),
    (3, Place::Rules, "Q >> ~zz : { } ;"),
    (3, Place::Procedure, "~zz"),
    (3, Place::Procedure, "~'zz'"),
    (3, Place::Procedure, "~qI"),
    (3, Place::Procedure, ". ~zz"),
    (3, Place::Procedure, ". ~'zz'"),
    (3, Place::Procedure, "# ~zz"),
    (3, Place::Procedure, "@ ~zz"),
    (3, Place::Procedure, "[ ~zz | * : ]"),
    (3, Place::Procedure, "[ @ ~zz | * : ]"),
    (3, Place::Procedure, "[ | qi , ~zz : ]"),
    (3, Place::Procedure, "[ qc | qv : | ~zz : ]"),
    (3, Place::Procedure, "[ @ Qc | ~zz : ]"),
    (3, Place::Procedure, "qg ( ~zz )"),
    (3, Place::Procedure, "[ qd ( ~zz ) | * : ]"),
    (3, Place::Procedure, "{ [ | * : { > ~zz } ] }"),
    (3, Place::Chooser, ">> ~zz"),
    (4, Place::Sections, "input : ~qi ;"),
    (4, Place::Sections, "input output : ~qo ;"),
    (4, Place::Sections, "output : qk ~qk ;"),
    (4, Place::Sections, "input : ~qk 'qs' ;"),
    (4, Place::Sections, "output : ~qk 'qz' = 64000 ;"),
    (4, Place::Sections, "input : qk = 61000 ~ql = 61000 ;"),
    (4, Place::Sections, "error : qk = 61000 ql = 60999 ~qn ;"),
    (4, Place::Sections, "error : ~qe ;"),
    (4, Place::Sections, "type ~qt : qk ;"),
    (4, Place::Sections, "type qk : ql ~ql ;"),
    (4, Place::Sections, "type qk : ql = 1 qn = 0 ~qp ;"),
    (4, Place::Sections, "mechanism qn : ~qf ;"),
    (4, Place::Sections, "mechanism qn : ~qi ;"),
    (4, Place::Sections, "input : ~qf ;"),
    (4, Place::Rules, "~Qp : ;"),
    (4, Place::Rules, "~qf : ;"),
    (4, Place::Rules, "~qc >> qt : >> qv ;"),
    (5, Place::Sections, "mechanism qn : qk ( ~qi ) ;"),
    (5, Place::Sections, "mechanism qn : qk >> ~Qp ;"),
    (5, Place::Rules, "Q >> ~qo : { } ;"),
    (5, Place::Procedure, "~qo"),
    (5, Place::Procedure, "~'qz'"),
    (5, Place::Procedure, "~Qp"),
    (5, Place::Procedure, "~qc"),
    (5, Place::Procedure, "~qg"),
    (5, Place::Procedure, "qf ~( qv )"),
    (5, Place::Procedure, "qi ~( qv )"),
    (5, Place::Procedure, "'qs' ~( zz )"),
    (5, Place::Procedure, ". ~qi"),
    (5, Place::Procedure, "# ~qo"),
    (5, Place::Procedure, "@ ~qf"),
    (5, Place::Procedure, "@ ~Qc"),
    (5, Place::Procedure, "[ ~qf | * : ]"),
    (5, Place::Procedure, "[ ~qd | * : ]"),
    (5, Place::Procedure, "[ qc ~( qv ) | * : ]"),
    (5, Place::Procedure, "[ @ ~Qp | * : ]"),
    (5, Place::Procedure, "[ | ~qv : ]"),
    (5, Place::Procedure, "[ qc | ~qi : ]"),
    (5, Place::Procedure, "qg ( ~qx )"),
    (5, Place::Chooser, ">> ~qx"),
    (6, Place::Procedure, "[ | qi : | ~qi : ]"),
    (6, Place::Procedure, "[ | 'qs' , qj , ~qi : ]"),
    (6, Place::Procedure, "[ qc | qv , ~qv : ]"),
    (6, Place::Procedure, "[ @ Qc | qw : { } | qv : | ~qw : | * : ]"),
    (7, Place::Procedure, "~>"),
    (7, Place::Procedure, "{ > } ~>"),
    (7, Place::Procedure, "[ | qi : { } | * : ~> ]"),
    (7, Place::Chooser, "~>"),
    (8, Place::Procedure, ">> ~qv"),
    (8, Place::Procedure, "{ >> ~zz }"),
    (8, Place::Procedure, ">> ~'qs'"),
    (8, Place::Chooser, "~>>"),
    (8, Place::Rules, "Q >> qt : ~;"),
    (8, Place::Rules, "Q >> qt : { >> qv > } ~;"),
    (8, Place::Rules, "Q >> qt : [ | qi : >> qv | * : ] ~;"),
    (9, Place::Sections, "input : qk ~LONG ;"),
    (9, Place::Sections, "type ~LONG : qk ;"),
    (9, Place::Sections, "mechanism qn : qk ( ~LONG ) ;"),
    (9, Place::Sections, "input : qk = ~65536 ;"),
    (9, Place::Procedure, "[ | qi , ~LONG : ]"),
    (9, Place::Procedure, "@ ~LONG"),
];

/// A name of 33 bytes.
pub const LONG: &str = "n23456789012345678901234567890123";

/// Words that are no words; what follows in the line is not read.
const BAD: [&str; 22] = [
    "$",
    "_",
    "+",
    "-",
    "/",
    "<",
    "&",
    "\"",
    "\\",
    "~",
    "`",
    "\u{0}",
    "\u{1}",
    "\u{b}",
    "\u{c}",
    "\u{7f}",
    "''",
    "'\n",
    "'a\n'",
    "'ab%\n",
    "'123456789012345678901234567890123'",
    "'%\n",
];

/// A good program's words with the sections and rules that parts refer to.
fn base(seed: &mut Seed) -> Words {
    loop {
        let size = 3 + seed.below(24);
        let mut words = good(seed, size);
        insert(seed, &mut words, Place::Sections, SECTIONS);
        insert(seed, &mut words, Place::Rules, RULES);
        // Not where the parts would run out of values.
        let mut more = words.clone();
        insert(seed, &mut more, Place::Sections, "input output : q1 q2 q3 q4 ; error : q1 q2 q3 q4 ;");
        if matches!(process(&more.join(&b' '), MAX_TABLE), Answer::Accepted { .. }) {
            return words;
        }
    }
}

/// Puts a part in; the index of the marked word, if one is marked.
fn insert(seed: &mut Seed, words: &mut Words, place: Place, part: &str) -> Option<usize> {
    let part = match place {
        Place::Sections | Place::Rules => part.to_string(),
        Place::Procedure => format!("Q : {part} ;"),
        Place::Chooser => format!("Q >> qt : {part} >> qv ;"),
    };
    let at = match place {
        Place::Sections => words.iter().position(|word| word == b"rules")?,
        _ => words.len() - 1,
    };
    insert_at(seed, words, at, &part)
}

/// Puts a part in before that word; the index of the marked word, if one is marked.
fn insert_at(seed: &mut Seed, words: &mut Words, at: usize, part: &str) -> Option<usize> {
    let mut marked = None;
    for (i, word) in part.split_whitespace().enumerate() {
        let bare = word.strip_prefix(MARK).unwrap_or(word);
        if bare.len() < word.len() {
            marked = Some(at + i);
        }
        let bare = if bare == "LONG" { LONG } else { bare };
        words.insert(at + i, spelled(seed, bare));
    }
    marked
}

/// The text of the words, with the fault at one of them, or at the end.
fn shown(seed: &mut Seed, number: u16, words: &Words, at: Option<usize>) -> Fault {
    let (text, places) = placed(seed, words);
    let (start, len) = match at {
        None => (text.len(), 0),
        Some(at) => (places[at], if number == 1 { 1 } else { words[at].len() }),
    };
    Fault { number, text, start, len }
}

/// A place, or the next where `=` would be parted from its entry: the value counted instead could pass the limit.
fn not_before_equals(words: &Words, at: usize) -> usize {
    at + usize::from(words.get(at).is_some_and(|word| word == b"="))
}

/// How many sorts of faults `plant` knows.
pub const SORTS: usize = PARTS.len() + 6;

/// A program with a fault of that sort.
pub fn plant(seed: &mut Seed, sort: usize) -> Fault {
    let mut words = base(seed);
    if let Some((number, place, part)) = PARTS.get(sort) {
        let at = insert(seed, &mut words, *place, part);
        return shown(seed, *number, &words, at);
    }
    let rules = words.iter().position(|word| word == b"rules").unwrap_or(0);
    match sort - PARTS.len() {
        0 | 1 => {
            // No word, before any other.
            let at = not_before_equals(&words, seed.below(words.len() + 1));
            words.insert(at, seed.of(&BAD).as_bytes().to_vec());
            shown(seed, 1, &words, Some(at))
        }
        2 => {
            // The text ends early.
            let at = not_before_equals(&words, seed.below(words.len()));
            words.truncate(at);
            shown(seed, 2, &words, None)
        }
        3 => {
            // A section's head among the rules.
            let at = seed.within(rules + 1, words.len());
            words.insert(at, seed.of(&["rules", "input", "output", "error", "type", "mechanism"]).as_bytes().to_vec());
            shown(seed, 2, &words, Some(at))
        }
        4 => {
            // A word behind the end.
            let at = words.len();
            let wordy: Vec<&&str> = VOCABULARY.iter().filter(|word| !word.starts_with('%')).collect();
            words.push(seed.of(&wordy).as_bytes().to_vec());
            shown(seed, 2, &words, Some(at))
        }
        _ => {
            // The first rule has a type.
            words.splice(rules + 2..rules + 2, [b">>".to_vec(), b"qt".to_vec()]);
            shown(seed, 5, &words, Some(rules + 1))
        }
    }
}

/// A program with two or three parts of any sort planted.
pub fn several(seed: &mut Seed) -> Vec<u8> {
    let words = base(seed);
    several_of(seed, words, &PARTS)
}

/// These words with two or three of the parts planted.
fn several_of(seed: &mut Seed, mut words: Words, parts: &[Part]) -> Vec<u8> {
    for _ in 0..seed.within(2, 3) {
        let (_, place, part) = seed.of(parts);
        insert(seed, &mut words, *place, part);
    }
    placed(seed, &words).0
}

#[cfg(test)]
mod tests {
    use super::*;

    /// Each sort, planted with so many seeds, is where it is planted.
    fn found(sorts: usize, plant: fn(&mut Seed, usize) -> Fault, parts: &[Part], seeds: u64) {
        for sort in 0..sorts {
            for n in 0..seeds {
                let Fault { number, text, start, len } = plant(&mut Seed::new(n), sort);
                let answer = process(&text, MAX_TABLE);
                let sort = parts.get(sort).map_or("", |(_, _, part)| part);
                let text = String::from_utf8_lossy(&text);
                assert_eq!(answer, Answer::Refused { number, start, len }, "{sort}, seed {n}: {text}");
            }
        }
    }

    #[test]
    fn faults_are_where_they_are_planted() {
        found(SORTS, plant, &PARTS, 8);
    }

    #[test]
    fn faults_of_operators_are_where_they_are_planted() {
        found(operators::SORTS, operators::plant, &operators::PARTS, 6);
    }

    #[test]
    fn faults_of_entries_are_where_they_are_planted() {
        let plant = |seed: &mut Seed, sort: usize| entries::plant(seed, &entries::Sort::all()[sort]);
        found(entries::Sort::all().len(), plant, &[], 6);
    }
}
