//! The same for operators under precedence: sections of them, and their uses.

use super::{Fault, Part, Place, base, insert, several_of, shown};
use crate::precedence;
use crate::texts::{Seed, Words};

/// What the planted parts refer to beside all else.
pub(super) const TOKENS: &str = "input : qp 'qq' = 50000 ; output : qr = 50000 ;";
pub(super) const SECTION: &str = "operators qE : qi 1 left qo 'qq' 15 right qr ;";

pub(super) const PARTS: [Part; 137] = [
    (2, Place::Sections, "operators ~: qi 1 left qo ;"),
    (2, Place::Sections, "operators ~'qX' : qi 1 left qo ;"),
    (2, Place::Sections, "operators ~input : qi 1 left qo ;"),
    (2, Place::Sections, "operators ~70 : qi 1 left qo ;"),
    (2, Place::Sections, "operators qX ~qi 1 left qo ;"),
    (2, Place::Sections, "operators qX ~= 1 ;"),
    (2, Place::Sections, "operators qX : ~;"),
    (2, Place::Sections, "operators qX : ~1 left qo ;"),
    (2, Place::Sections, "operators qX : ~rules"),
    (2, Place::Sections, "operators qX : ~^ qE @ Qp ;"),
    (2, Place::Sections, "operators qX : qi ~left qo ;"),
    (2, Place::Sections, "operators qX : qi ~'qs' 1 left qo ;"),
    (2, Place::Sections, "operators qX : qi ~= 1 left qo ;"),
    (2, Place::Sections, "operators qX : qi ~, 1 left qo ;"),
    (2, Place::Sections, "operators qX : qi ~;"),
    (2, Place::Sections, "operators qX : qi 1 ~qo ;"),
    (2, Place::Sections, "operators qX : qi 1 ~'left' qo ;"),
    (2, Place::Sections, "operators qX : qi 1 ~LEFT qo ;"),
    (2, Place::Sections, "operators qX : qi 1 ~Right qo ;"),
    (2, Place::Sections, "operators qX : qi 1 ~lef qo ;"),
    (2, Place::Sections, "operators qX : qi 1 ~lefts qo ;"),
    (2, Place::Sections, "operators qX : qi 1 ~operators qo ;"),
    (2, Place::Sections, "operators qX : qi 1 ~LONG qo ;"),
    (2, Place::Sections, "operators qX : qi 1 ~2 left qo ;"),
    (2, Place::Sections, "operators qX : qi 1 ~end ;"),
    (2, Place::Sections, "operators qX : qi 1 ~;"),
    (2, Place::Sections, "operators qX : qi 1 left ~;"),
    (2, Place::Sections, "operators qX : qi 1 left ~70 ;"),
    (2, Place::Sections, "operators qX : qi 1 left ~. qo ;"),
    (2, Place::Sections, "operators qX : qi 1 left ~output ;"),
    (2, Place::Sections, "operators qX : qi 1 left qo ~, qj 1 left qo ;"),
    (2, Place::Sections, "operators qX : qi 1 left qo ~= 3 ;"),
    (2, Place::Sections, "operators qX : qi 1 left qo ~2 left qo ;"),
    (2, Place::Sections, "operators qX : qi 1 left qo qj ~;"),
    (2, Place::Sections, "operators qX : qi 1 left right left ~;"),
    (2, Place::Sections, "operators qX : qi 1 left qo ~rules"),
    (2, Place::Sections, "operators qX : qi 1 left qo ; ~qj 1 left qo ;"),
    (2, Place::Sections, "~operator qX : qi 1 left qo ;"),
    (2, Place::Sections, "~operatorss qX : qi 1 left qo ;"),
    (2, Place::Sections, "~Operators qX : qi 1 left qo ;"),
    (2, Place::Sections, "~'operators' qX : qi 1 left qo ;"),
    (2, Place::Sections, "~left : qi 1 left qo ;"),
    (2, Place::Sections, "~^ qE @ Qp ;"),
    (2, Place::Sections, "input ~operators qX : qi 1 left qo ;"),
    (2, Place::Rules, "Q ~^ : ;"),
    (2, Place::Rules, "~^ qE @ Qp ;"),
    (2, Place::Rules, "operators ~qX : qi 1 left qo ;"),
    (2, Place::Rules, "Q : ; operators ~qX : qi 1 left qo ;"),
    (2, Place::Procedure, "^ ~@ Qp"),
    (2, Place::Procedure, "^ ~'qs' @ Qp"),
    (2, Place::Procedure, "^ ~70 @ Qp"),
    (2, Place::Procedure, "^ ~^ qE @ Qp"),
    (2, Place::Procedure, "^ ~end @ Qp"),
    (2, Place::Procedure, "^ qE ~Qp"),
    (2, Place::Procedure, "^ qE ~. qo"),
    (2, Place::Procedure, "^ qE ~( @ Qp )"),
    (2, Place::Procedure, "^ qE ~^ qE @ Qp"),
    (2, Place::Procedure, "{ ^ qE ~}"),
    (2, Place::Procedure, "^ qE @ ~'qs'"),
    (2, Place::Procedure, "^ qE @ ~70"),
    (2, Place::Procedure, "^ qE @ ~@ Qp"),
    (2, Place::Procedure, "{ ^ qE @ ~}"),
    (2, Place::Procedure, "^ qE @ Qp ~( qv )"),
    (2, Place::Procedure, "^ qE @ Qp ~, Qp"),
    (2, Place::Procedure, "[ ~^ qE @ Qp | * : ]"),
    (2, Place::Procedure, "[ @ ~^ qE | * : ]"),
    (2, Place::Procedure, "[ | ~^ qE @ Qp : ]"),
    (2, Place::Procedure, ". ~^"),
    (2, Place::Procedure, "@ ~^ qE"),
    (2, Place::Procedure, "qg ( ~^ )"),
    (3, Place::Sections, "operators qX : ~zz 1 left qo ;"),
    (3, Place::Sections, "operators qX : ~'zz' 1 left qo ;"),
    (3, Place::Sections, "operators qX : ~left 1 left qo ;"),
    (3, Place::Sections, "operators qX : ~qm 1 left qo ;"),
    (3, Place::Sections, "operators qX : qi 1 left ~zz ;"),
    (3, Place::Sections, "operators qX : qi 1 left ~'zz' ;"),
    (3, Place::Sections, "operators qX : qi 1 left ~right ;"),
    (3, Place::Sections, "operators qX : qi 1 left qo ~zz 1 right qo ;"),
    (3, Place::Procedure, "^ ~zz @ Qp"),
    (3, Place::Procedure, "^ ~zz @ zz"),
    (3, Place::Procedure, "^ ~qm @ Qp"),
    (3, Place::Procedure, "^ ~qe1 @ Qp"),
    (3, Place::Procedure, "^ qE @ ~zz"),
    (3, Place::Procedure, "^ qE @ ~qm"),
    (3, Place::Procedure, ">> ^ qE @ ~zz"),
    (4, Place::Sections, "operators ~qE : qi 1 left qo ;"),
    (4, Place::Sections, "operators qX : qi 1 left qo ; operators ~qX : qj 1 left qo ;"),
    (4, Place::Sections, "operators ~qE : qi 1 left zz ;"),
    (45, Place::Sections, "operators qX : qi 1 left qo ~qj 1 right qo ;"),
    (45, Place::Sections, "operators qX : qi 15 right qo ~'qq' 015 left qo ;"),
    (45, Place::Sections, "operators qX : qi 1 left qo qj 2 right qo ~qp 1 right qo ;"),
    (45, Place::Sections, "operators qX : qi 1 left qo qj 2 right qo ~qp 2 left zz ;"),
    (45, Place::Sections, "operators qX : qi 1 left qo ~qi 1 left qo ;"),
    (45, Place::Sections, "operators qX : qi 1 left qo qj 2 right qo ~qi 3 left qr ;"),
    (45, Place::Sections, "operators qX : qi 1 left qo ~'qs' 2 left qr ;"),
    (45, Place::Sections, "operators qX : 'qs' 1 left qo qj 1 left qo ~qi 2 left qr ;"),
    (45, Place::Sections, "operators qX : qi 1 left qo ~qi 1 right qo ;"),
    (45, Place::Sections, "operators qX : qi 1 left qo ~qo 1 right qo ;"),
    (45, Place::Sections, "operators qX : qi 1 left qo ~qE 1 right qo ;"),
    (45, Place::Sections, "operators qX : qi 1 left qo ~qf 1 right zz ;"),
    (45, Place::Sections, "operators qX : qi 1 left qo ~qj 1 right qo qp 1 left zz ;"),
    (5, Place::Sections, "operators qX : ~qo 1 left qo ;"),
    (5, Place::Sections, "operators qX : ~'qz' 1 left qo ;"),
    (5, Place::Sections, "operators qX : ~qt 1 left qo ;"),
    (5, Place::Sections, "operators qX : ~qf 1 left qo ;"),
    (5, Place::Sections, "operators qX : ~Qp 1 left qo ;"),
    (5, Place::Sections, "operators qX : ~qX 1 left qo ;"),
    (5, Place::Sections, "operators qX : qi 1 left qo ~qo 1 left qo ;"),
    (5, Place::Sections, "operators qX : qi 1 left ~qi ;"),
    (5, Place::Sections, "operators qX : qi 1 left ~'qs' ;"),
    (5, Place::Sections, "operators qX : qi 1 left ~qE ;"),
    (5, Place::Sections, "operators qX : qi 1 left ~qi qj 1 right qo ;"),
    (5, Place::Sections, "mechanism qn : qk ( ~qE ) ;"),
    (5, Place::Rules, "Q >> ~qE : { } ;"),
    (5, Place::Procedure, "^ ~qi @ Qp"),
    (5, Place::Procedure, "^ ~Qp @ zz"),
    (5, Place::Procedure, "^ ~qt @ Qp"),
    (5, Place::Procedure, "^ qE @ ~Qc"),
    (5, Place::Procedure, "^ qE @ ~qf"),
    (5, Place::Procedure, "^ qE @ ~qE"),
    (5, Place::Procedure, "^ qE @ ~qi"),
    (5, Place::Procedure, "@ ~qE"),
    (5, Place::Procedure, ". ~qE"),
    (5, Place::Procedure, "~qE"),
    (5, Place::Procedure, "[ ~qE | * : ]"),
    (5, Place::Procedure, "[ @ ~qE | * : ]"),
    (6, Place::Procedure, "[ | qi : ^ qE @ Qp | ~qi : ]"),
    (7, Place::Procedure, "{ ^ qE @ Qp > } ^ qE @ Qp ~>"),
    (8, Place::Procedure, "^ qE @ Qp >> ~qE"),
    (8, Place::Chooser, "~>> ^ qE @ Qp"),
    (8, Place::Rules, "Q >> qt : ^ qE @ Qp ~;"),
    (8, Place::Rules, "Q >> qt : { ^ qE @ Qp > } ~;"),
    (9, Place::Sections, "operators ~LONG : qi 1 left qo ;"),
    (9, Place::Sections, "operators qX : ~LONG 1 left qo ;"),
    (9, Place::Sections, "operators qX : qi 1 left ~LONG ;"),
    (9, Place::Sections, "operators qX : zz ~0 'left'"),
    (9, Place::Sections, "operators qX : qi 1 left qo qi ~016 right qo qj 1 qo ;"),
];

/// Levels outside 1 to 15, and names of 33 bytes at a use.
const LEVELS: [&str; 9] = ["0", "16", "000", "00016", "99", "65535", "65536", "65537", "340282366920938463463374607431768211457"];
const LONG_NAMES: [&str; 2] = ["^ ~LONG @ Qp", "^ qE @ ~LONG"];

/// How many sorts of faults `plant` knows.
pub const SORTS: usize = PARTS.len() + LEVELS.len() + LONG_NAMES.len();

/// A good program's words with the sections and rules that parts refer to.
fn with_section(seed: &mut Seed) -> Words {
    let mut words = base(seed);
    insert(seed, &mut words, Place::Sections, TOKENS);
    precedence::put_section(seed, &mut words, SECTION);
    for _ in 0..seed.below(3) {
        precedence::put_use(seed, &mut words, "qE", "Qp");
    }
    words
}

/// A program with a fault of that sort.
pub fn plant(seed: &mut Seed, sort: usize) -> Fault {
    let mut words = with_section(seed);
    let (number, place, part) = match PARTS.get(sort) {
        Some((number, place, part)) => (*number, *place, part.to_string()),
        None => match LEVELS.get(sort - PARTS.len()) {
            Some(level) => (9, Place::Sections, format!("operators qX : qj ~{level} right qo ;")),
            None => (9, Place::Procedure, LONG_NAMES[sort - PARTS.len() - LEVELS.len()].to_string()),
        },
    };
    let at = insert(seed, &mut words, place, &part);
    shown(seed, number, &words, at)
}

/// A program with two or three parts of any sort planted.
pub fn several(seed: &mut Seed) -> Vec<u8> {
    let words = with_section(seed);
    several_of(seed, words, &PARTS)
}
