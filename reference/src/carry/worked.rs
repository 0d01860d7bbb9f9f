//! Worked examples of how A.14 is read. `~` marks the word at fault in a text that is not accepted and is taken out.

use crate::walker::Walk;

/// A number, the old and the new text, a walk's location and its return locations, the oldest first, and where they are carried to.
pub type Worked = (u16, &'static str, &'static str, &'static [u16], &'static [u16]);

/// M has the words 3 0 8 8 3 1 9, and N 5 0 9.
const CALLS: &str = "input: a b; output: o; rules M: a @N b; N: .o; end";
/// M has 8 7 9, P 3 0 9, the rule of level 1 the locations from 7, that of level 2 those from 25 to 42.
const SUMS: &str =
    "input: a plus times; output: add mul; operators E: plus 1 left add times 2 left mul; rules M: ^E @P; P: a; end";
/// M has 7 3 1 8, the choice table 1 8 4, 3 8 2 8 and 9: no call in all that.
const EIGHTS: &str = "input: a = 8; rules M: [ | a: ]; N: ; end";

pub const WORKED: &[Worked] = &[
    // An identical program gives an equal walk, if all its places lie in rules.
    (0, CALLS, CALLS, &[1], &[1]),
    (0, CALLS, CALLS, &[8, 5], &[8, 5]),
    (0, CALLS, CALLS, &[10, 1, 7, 8], &[10, 1, 7, 8]),
    (52, CALLS, CALLS, &[0], &[]),
    (52, CALLS, CALLS, &[11], &[]),
    (52, CALLS, CALLS, &[65_535], &[]),
    (52, CALLS, CALLS, &[8, 5, 0], &[]),
    (52, CALLS, CALLS, &[8, 11, 5], &[]),
    // A place inside an instruction lies in its rule.
    (0, CALLS, CALLS, &[2, 4], &[2, 4]),
    // Rules before, behind and in another order: calls are compared by name, not by location.
    (0, CALLS, "input: a b; output: o; rules K: ?; M: a @N b; N: .o; end", &[8, 5], &[10, 7]),
    (0, CALLS, "input: a b; output: o; rules M: a @N b; K: ?; N: .o; end", &[8, 5], &[10, 5]),
    (0, CALLS, "input: a b; output: o; rules N: .o; M: a @N b; end", &[8, 5], &[1, 8]),
    (0, CALLS, "input: a b; output: o; rules N: .o; M: a @N b; end", &[4, 2], &[7, 5]),
    // A rule that is not in progress may change or go.
    (0, CALLS, "input: a b; output: o; rules M: a @N b; N: ; end", &[5], &[5]),
    (0, CALLS, "input: a b; output: o; rules M: ; N: .o; end", &[8], &[2]),
    (0, CALLS, "input: a b; output: o; rules N: .o; end", &[8], &[1]),
    // One that is in progress may not.
    (52, CALLS, "input: a b; output: o; rules M: a @N b; N: ; end", &[8, 5], &[]),
    (52, CALLS, "input: a b; output: o; rules M: a @N a; N: .o; end", &[8, 5], &[]),
    (52, CALLS, "input: a b; output: o; rules M: a @N b b; N: .o; end", &[1], &[]),
    (52, CALLS, "input: a b; output: o; rules M: a @N; N: .o; end", &[1], &[]),
    (52, CALLS, "input: a b; output: o; rules N: .o; end", &[8, 5], &[]),
    // The very words of the table, but another name called, also one that the old program has not.
    (52, CALLS, "input: a b; output: o; rules M: a @K b; K: .o; end", &[5], &[]),
    (52, CALLS, "input: a b; output: o; rules M: a @K b; K: .o; end", &[8], &[]),
    (52, CALLS, "input: a b; output: o; rules M: a @M b; N: .o; end", &[5], &[]),
    (0, CALLS, "input: a b; output: o; rules M: a @K b; K: .o; N: .o; end", &[8], &[11]),
    // Another rule at the called rule's old place.
    (0, CALLS, "input: a b; output: o; rules M: a @N b; K: .o; N: a; end", &[5], &[5]),
    // Words are compared, no texts and no trees.
    (0, "rules M: { > }; end", "rules % M\nM:do>od;end", &[3], &[3]),
    (0, "input: a b; rules M: [ | *: a ] b; end", "input: a b; rules M: [ | *: a b ]; end", &[6], &[6]),
    (0, "input: a 'x'; rules M: a; end", "input: a 'x'; rules M: 'x'; end", &[2], &[2]),
    // Numbers that look like a call are none.
    (0, EIGHTS, "input: a = 8; rules N: ; M: [ | a: ]; end", &[6, 9], &[7, 10]),
    (52, EIGHTS, "input: a = 8; rules M: [ | *: ]; N: ; end", &[1], &[]),
    (
        52,
        "input: a = 8 b = 1; output: o = 1; rules M: a b; end",
        "input: a = 8 b = 1; output: o = 1; rules M: a .o; end",
        &[5],
        &[],
    ),
    // Distances are words too.
    (52, "input: a b; rules M: { a b }; end", "input: a b; rules M: a { b }; end", &[1], &[]),
    (52, "input: a b; rules M: { > a } b; end", "input: a b; rules M: { > a b }; end", &[1], &[]),
    // Sections word for word: blanks and comments count for nothing, every word does.
    (0, "input: a; rules M: a; end", "% a\ninput : a\n; rules M: a; end", &[1], &[1]),
    (51, "input: a = 7; rules M: a; end", "input: a = 07; rules M: a; end", &[1], &[]),
    (51, "input: a; rules M: a; end", "input: a = 0; rules M: a; end", &[1], &[]),
    (51, "mechanism m: f; rules M: f; end", "mechanism n: f; rules M: f; end", &[1], &[]),
    (51, "rules M: ; end", "input: a; rules M: ; end", &[1], &[]),
    (51, "input: a; rules M: ; end", "rules M: ; end", &[1], &[]),
    (51, "input: a b; rules M: ; end", "input: a; input: b; rules M: ; end", &[1], &[]),
    (51, "input: a 'x'; rules M: ; end", "input: a 'X'; rules M: ; end", &[1], &[]),
    // 51 comes before 52.
    (51, "rules M: ; end", "input: a; rules N: ; end", &[0], &[]),
    // Rules made for operators, by section, operand rule and level.
    (0, SUMS, SUMS, &[4, 3, 9, 27], &[4, 3, 9, 27]),
    (
        0,
        SUMS,
        "input: a plus times; output: add mul; operators E: plus 1 left add times 2 left mul; rules M: ^E @P; Q: ; P: a; end",
        &[4, 3, 9, 27],
        &[5, 3, 10, 28],
    ),
    (
        0,
        SUMS,
        "input: a plus times; output: add mul; operators E: plus 1 left add times 2 left mul; rules F: ^E @F; M: ^E @P; P: a; end",
        &[4, 3, 9, 27],
        &[7, 6, 48, 66],
    ),
    (
        52,
        SUMS,
        "input: a plus times; output: add mul; operators E: plus 1 left add times 2 left mul; rules M: ^E @Q; P: a; Q: a; end",
        &[9],
        &[],
    ),
    (
        52,
        SUMS,
        "input: a plus times; output: add mul; operators E: plus 1 left add times 2 left mul; rules M: ; P: a; end",
        &[4, 27],
        &[],
    ),
    // The same words under written names.
    (52, SUMS, WRITTEN, &[3], &[]),
    (52, SUMS, WRITTEN, &[9], &[]),
    (52, SUMS, WRITTEN, &[27], &[]),
    (0, SUMS, WRITTEN, &[4], &[4]),
    (52, WRITTEN, SUMS, &[27], &[]),
    (
        51,
        SUMS,
        "input: a plus times; output: add mul; operators E: plus 1 left add times 3 left mul; rules M: ^E @P; P: a; end",
        &[4],
        &[],
    ),
    // A text that is not accepted; the old one first, and before all else.
    (7, "rules M: ~> ; end", "input: a; rules M: ; end", &[0], &[]),
    (7, "rules M: ; end", "input: a; rules M: ~> ; end", &[0], &[]),
    (3, "rules M: ~zz; end", "$", &[1], &[]),
    (2, "rules M: ;~", "$", &[1], &[]),
    (1, "rules M: ; end", "rules M: ~$ ; end", &[1], &[]),
];

/// The rules of `SUMS` written out.
const WRITTEN: &str = "input: a plus times; output: add mul; operators E: plus 1 left add times 2 left mul; rules M: @L; P: a; \
    L: @K {[ | plus: @K .add | *: > ]}; K: @P {[ | times: @P .mul | *: > ]}; end";

/// A walk at that location, with these return locations behind it.
pub fn walk(places: &[u16]) -> Walk {
    let mut walk = Walk::fresh();
    walk.location = places[0];
    walk.held = places.len() - 1;
    walk.returns[..walk.held].copy_from_slice(&places[1..]);
    walk
}
