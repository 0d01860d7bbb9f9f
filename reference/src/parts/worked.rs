//! Worked examples of how A.13 is read. `~` marks the word that is shown and is taken out; what is accepted has none.

use crate::processor::parts::{Fault, spellings};

const MARK: char = '~';

/// A number, a common part and a part.
pub const PARTS: &[(u16, &str, &str)] = &[
    // A common part is sections, `rules`, lines, `end`; there may be no line.
    (0, "rules end", "rules M: ; end"),
    (0, "type t: y; rules end", "rules M: ; end"),
    (2, "rules M ~: ; end", "rules M: ; end"),
    (2, "type t: y; rules R >> t ~: >> y; end", "rules M: ; end"),
    (2, "type t: y; rules R >> ~'t'; end", "rules M: ; end"),
    (2, "type t: y; rules R ~; end", "rules M: ; end"),
    (2, "type t: y; rules R >> t ~end", "rules M: ; end"),
    (2, "rules ~'R' >> t; end", "rules M: ; end"),
    (2, "rules end ~end", "rules M: ; end"),
    (2, "rules~", "rules M: ; end"),
    (2, "~end", "rules M: ; end"),
    (1, "rules ~$ end", "rules M: ; end"),
    // A part is `rules`, one rule or more, `end`.
    (2, "rules end", "rules ~end"),
    (2, "rules end", "~input: a; rules M: ; end"),
    (2, "rules end", "~operators E: a 1 left o; rules M: ; end"),
    (2, "rules end", "rules M: ; end ~M"),
    (2, "rules end", "~"),
    (2, "rules end", "rules M: ;~"),
    (1, "rules end", "rules M: ~''; end"),
    // Each text has its own end: nothing goes on from the common part to the part.
    (2, "rules end %", "~end rules M: ; end"),
    (1, "rules end ~'", "' rules M: ; end"),
    // 1, 2 and 9 of both before 3 to 8 of either.
    (2, "input: a a; rules end", "rules ~end"),
    (9, "input: a a; rules end", "rules M: @~n23456789012345678901234567890123; end"),
    (4, "input: a ~a; rules end", "rules M: >; end"),
    (2, "rules ~;", "$"),
    (2, "input: a = 65535 ~, b; rules end", "$"),
    (4, "type t: y; rules R >> t; ~R >> t; end", "rules M: >; end"),
    // The list's own faults.
    (4, "type t: y; rules R >> t; S >> t; ~R >> t; end", "rules M: ; end"),
    (4, "type t: y; mechanism m: f; rules ~f >> t; end", "rules M: ; end"),
    (3, "rules R >> ~t; end", "rules M: ; end"),
    (5, "input: t; rules R >> ~t; end", "rules M: ; end"),
    (9, "type t: y; rules ~n23456789012345678901234567890123 >> t; end", "$"),
    (9, "type t: y; rules R >> ~n23456789012345678901234567890123; end", "$"),
    // Declared in either text, or called: its rule stands in some part.
    (5, "rules R >> ~M; end", "rules M: ; end"),
    (5, "rules R >> ~R; end", "rules M: ; end"),
    (5, "mechanism m: f(~M); rules end", "rules M: ; end"),
    (5, "mechanism m: f(~N); rules end", "rules M: @N; end"),
    (3, "mechanism m: f(~N); rules end", "rules M: ; end"),
    // A token's name may be a rule's.
    (0, "input: R; type t: y; rules R >> t; end", "rules M: R [@R | y: ]; end"),
    // The name before its type.
    (4, "mechanism m: f; rules ~f >> zz; end", "rules M: ; end"),
    (45, "input: p q; output: o; operators E: p 1 left o ~q 1 right o; rules end", "rules M: ; end"),
];

/// Tokens, types, an operation of each kind, and two choice rules.
pub const COMMON: &str = "input: a b; output: o; error: e; type t: y n; type u: z; mechanism m: f g(t) c>>t;
    operators E: a 1 left o b 2 right o; rules R >> t; S >> u; end";

/// A number, and the rules of a part with that common part.
pub const RULES: &[(u16, &str)] = &[
    // Calls go by the list.
    (0, "M: @N [@R | y: | n: ] [@S | z: ] ^E @N;"),
    (5, "M: @~R;"),
    (5, "M: ^E @~R;"),
    (5, "M: [@~N | *: ];"),
    (5, "M: [@R | ~z: ];"),
    (5, "M: @~f;"),
    (5, "M: [@~f | *: ];"),
    (5, "M: ^E @~c;"),
    // Also where the part itself says otherwise.
    (5, "M: [@~N | y: ]; N >> t: >> y;"),
    (5, "M: @~R; R: ;"),
    (0, "M: @N; N >> t: >> y;"),
    (0, "M: [@R | y: ]; R: ;"),
    (0, "M: [@R | y: ]; R >> u: >> z;"),
    (5, "M: [@R | ~z: ]; R >> u: >> z;"),
    // Inside a rule its own head counts.
    (5, "R >> u: >> ~y;"),
    (8, "R: >> ~y;"),
    (8, "N >> t: ~;"),
    // A name of another class may be a rule's.
    (0, "M: @a @o @e @t @y @E @m;"),
    // What is called is declared, and so are the part's rules and the list's.
    (5, "M: .~N @N;"),
    (3, "M: .~N;"),
    (5, "M: .~N @N; N: ;"),
    (5, "M: .~R;"),
    (5, "M: @N ^~N @N;"),
    (3, "M: @N ^~P @N;"),
    (5, "M: ^~R @N;"),
    // A part's own names; the list does not make them repeat.
    (0, "R >> t: >> y;"),
    (0, "N >> t: >> y; M: ;"),
    (4, "M: ; N: ; ~M: ;"),
    (4, "~f: ;"),
    (4, "R >> t: >> y; ~R >> t: >> y;"),
    (3, "M >> ~zz: >> y;"),
    (5, "M >> ~a: >> y;"),
    (3, "M: ~zz;"),
    (6, "M: [ | a: | ~a: ];"),
    (7, "M: ~>;"),
];

/// A type, a choice rule, and operators.
const LINKED: &str = "input: p; output: o; type t: y n; type u: z; operators E: p 1 left o; rules R >> t; end";

/// A number, a common part and the parts that are linked.
pub const LINKS: &[(u16, &[&str])] = &[
    (0, &["rules end", "rules M: ; end"]),
    (0, &[LINKED, "rules M: [@R | y: @N | n: ]; end", "rules R >> t: >> y; end", "rules N: ?; end"]),
    // A listed rule in no part that nothing calls.
    (0, &[LINKED, "rules M: @N; end", "rules N: @M; end"]),
    (5, &[LINKED, "rules ~R >> t: >> y; M: @N; end", "rules R: ; end"]),
    // 49: a called rule in no part, by a call, a choice, operators.
    (49, &[LINKED, "rules M: @~N; end"]),
    (49, &[LINKED, "rules M: ; end", "rules N: [@~R | y: ]; end"]),
    (49, &[LINKED, "rules M: ^E @~N; end"]),
    // Of another sort or type.
    (49, &[LINKED, "rules M: [@R | y: ]; end", "rules ~R: ; end"]),
    (49, &[LINKED, "rules M: ; ~R: ; end"]),
    (49, &[LINKED, "rules M: ; end", "rules ~R >> u: >> z; end"]),
    (49, &[LINKED, "rules M: @N; end", "rules ~N >> t: >> y; end"]),
    // In one pass, a rule's name before what it calls.
    (49, &[LINKED, "rules M: @~N; R: ; end"]),
    (49, &[LINKED, "rules M: @M; ~R: @N; end"]),
    (49, &[LINKED, "rules M: ; end", "rules L: @~N; end", "rules R: ; end"]),
    // 50, at the later part; 49 comes before it.
    (50, &[LINKED, "rules M: ; end", "rules N: ; ~M: ; end"]),
    (50, &[LINKED, "rules M: ; N: ; end", "rules ~N: ; M: ; end"]),
    (50, &[LINKED, "rules M: ; end", "rules N: ; end", "rules ~N: ; M: ; end"]),
    (49, &[LINKED, "rules M: ; end", "rules N: ; M: ; end", "rules L: @~K; end"]),
    (50, &[LINKED, "rules M: ; end", "rules ~M: ; R >> t: >> y; end", "rules R >> t: >> n; end"]),
    // No part, at the end of the common part; its own faults come before.
    (9, &["rules end~"]),
    (4, &["input: a ~a; rules end"]),
];

/// The texts of an example without the mark, each behind what is put before it, and the fault that they have.
pub fn example(number: u16, texts: &[&str], before: &[u8]) -> (Vec<Vec<u8>>, Option<Fault>) {
    let plain = |text: &&str| [before, text.replacen(MARK, "", 1).as_bytes()].concat();
    let marked = texts.iter().enumerate().find_map(|(i, text)| Some((i, text.find(MARK)?)));
    let fault = marked.map(|(text, at)| {
        let word = spellings(&texts[text].as_bytes()[at + 1..]).first().map_or(0, Vec::len);
        Fault { number, text, start: before.len() + at, len: if number == 1 { 1 } else { word } }
    });
    (texts.iter().map(plain).collect(), fault)
}
