//! Operators under precedence by the nested rules of section 4.2 of document 000: they are written out as text behind the last rule, and a use
//! becomes a call of the lowest level's.

use super::{At, MAX_LABELS, MAX_NAMES, MAX_RULES, Node, Operator, Operators, Tree, Use, Word};
use std::collections::{BTreeMap, HashMap, HashSet};

/// A section and an operand rule that are used together, by their names.
type Pair<'a> = (&'a [u8], &'a [u8]);

/// The operators of each level that is used, the lowest first, in the section's order.
type Levels<'a> = BTreeMap<u16, Vec<&'a Operator>>;

/// Rules that are made, as text, with the first use of each and its level, and for each pair the name of the lowest one.
#[derive(Default)]
struct Made<'a> {
    text: Vec<u8>,
    uses: Vec<(Use, u16)>,
    lowest: HashMap<Pair<'a>, Vec<u8>>,
}

struct Writer<'a> {
    text: &'a [u8],
    words: &'a [Word],
    tree: &'a Tree,
}

/// The text without operators, for a tree without faults and so many names declared, or the `^` whose rules pass a limit.
pub fn write_out(text: &[u8], words: &[Word], tree: &Tree, names: usize) -> Result<Vec<u8>, At> {
    let writer = Writer { text, words, tree };
    let uses = uses(tree);
    let made = writer.make(&uses, names)?;
    // What stands instead of words, with the word behind them.
    let mut instead: HashMap<At, (At, Vec<u8>)> = HashMap::new();
    for section in &tree.operators {
        instead.insert(section.from, (section.to + 1, Vec::new()));
    }
    for used in &uses {
        instead.insert(used.sign, (used.rule + 1, [b"@", &made.lowest[&writer.pair(used)][..]].concat()));
    }
    // `end` is the last word before the text's end.
    instead.insert(words.len() - 2, (words.len() - 1, [&made.text, &b"end"[..]].concat()));
    let mut out: Vec<u8> = Vec::new();
    let mut at = 0;
    while at + 1 < words.len() {
        let (behind, part) = instead.remove(&at).unwrap_or_else(|| (at + 1, writer.spelling(at).to_vec()));
        out.extend(part);
        out.push(b' ');
        at = behind;
    }
    Ok(out)
}

/// For each rule made the first use of its pair, and its level, for a text that passes no limit.
pub fn first_uses(text: &[u8], words: &[Word], tree: &Tree) -> Vec<(Use, u16)> {
    Writer { text, words, tree }.make(&uses(tree), 0).map_or(Vec::new(), |made| made.uses)
}

impl<'a> Writer<'a> {
    fn spelling(&self, at: At) -> &'a [u8] {
        &self.text[self.words[at].start..self.words[at].start + self.words[at].len]
    }

    fn pair(&self, used: &Use) -> Pair<'a> {
        (self.spelling(used.section), self.spelling(used.rule))
    }

    /// The rules of all pairs in the order of first use, their names being no words of the text.
    fn make(&self, uses: &[Use], names: usize) -> Result<Made<'a>, At> {
        let taken: HashSet<&[u8]> = (0..self.words.len()).map(|at| self.spelling(at)).collect();
        let mut fresh = (0..).map(|i| format!("Level{i}").into_bytes()).filter(|name| !taken.contains(&name[..]));
        let mut made = Made::default();
        for used in uses {
            let pair @ (section, operand) = self.pair(used);
            if made.lowest.contains_key(&pair) {
                continue;
            }
            let section = self.tree.operators.iter().find(|other| self.spelling(other.name) == section);
            let levels = levels(section.expect("declared"));
            made.uses.extend(levels.keys().map(|level| (*used, *level)));
            let count = made.uses.len();
            let most = levels.values().map(Vec::len).max();
            if most > Some(MAX_LABELS) || self.tree.bodies.len() + count > MAX_RULES || names + count > MAX_NAMES {
                return Err(used.sign);
            }
            let own: Vec<Vec<u8>> = fresh.by_ref().take(levels.len()).collect();
            let higher = own[1..].iter().map(Vec::as_slice).chain([operand]);
            for ((name, next), operators) in own.iter().zip(higher).zip(levels.values()) {
                made.text.extend(self.rule(name, next, operators));
            }
            made.lowest.insert(pair, own[0].clone());
        }
        Ok(made)
    }

    /// The rule of one level, which calls the next higher one.
    fn rule(&self, name: &[u8], next: &[u8], operators: &[&Operator]) -> Vec<u8> {
        let left = operators[0].left;
        let (again, open, close): (_, &[u8], &[u8]) = if left { (next, b"{[", b"|*:>]}; ") } else { (name, b"[", b"|*:]; ") };
        let mut out = [name, b": @", next, open].concat();
        for operator in operators {
            let (input, output) = (self.spelling(operator.input), self.spelling(operator.output));
            out.extend([b"| ", input, b": @", again, b" .", output].concat());
        }
        out.extend(close);
        out
    }
}

fn levels(section: &Operators) -> Levels<'_> {
    let mut levels = Levels::new();
    for operator in &section.entries {
        levels.entry(operator.level).or_default().push(operator);
    }
    levels
}

/// All uses in text order.
pub fn uses(tree: &Tree) -> Vec<Use> {
    let mut out = Vec::new();
    tree.bodies.iter().for_each(|body| collect(&body.nodes, &mut out));
    out
}

fn collect(nodes: &[Node], out: &mut Vec<Use>) {
    for node in nodes {
        match node {
            Node::Operators(used) => out.push(*used),
            Node::Cycle(nodes) => collect(nodes, out),
            Node::Choice { alternatives, .. } => alternatives.iter().for_each(|alternative| collect(&alternative.nodes, out)),
            _ => {}
        }
    }
}

#[cfg(test)]
mod tests {
    use crate::processor::asserts::{accepted, refused};
    use crate::processor::{Answer, MAX_TABLE, process, written_out};

    /// The same answer as for this text without operators.
    #[track_caller]
    fn same(text: &str, plain: &str) {
        let answer = process(plain.as_bytes(), MAX_TABLE);
        assert!(matches!(answer, Answer::Accepted { .. }), "{plain}: {answer:?}");
        assert_eq!(process(text.as_bytes(), MAX_TABLE), answer, "{text}");
    }

    const HEAD: &str = "input: p 'p' q r; output: x 'x' y; type t: v; mechanism m: f g(t) c>>t;";

    /// A section behind others, and a rule that does not use it.
    fn section(entries: &str) -> String {
        format!("{HEAD} operators E: {entries}; rules M: ; end")
    }

    /// Actions of the first rule, with two sections and two operand rules.
    fn actions(actions: &str) -> String {
        format!(
            "{HEAD} operators E: p 1 left x; operators F: q 3 right y p 2 left x; rules M: {actions}; P: r; Q: ; C>>t: >>v; end"
        )
    }

    #[test]
    fn two_tables_by_hand() {
        let left =
            "input: a plus times; output: add mul; operators E: plus 1 left add times 2 left mul; rules M: ^E @P; P: a; end";
        let table = [
            vec![8, 7, 9],
            vec![3, 0, 9],
            vec![8, 25, 7, 7, 8, 25, 5, 0, 1, 6, 1, 1, 8, 1, 3, 2, 14, 9],
            vec![8, 4, 7, 7, 8, 4, 5, 1, 1, 6, 1, 2, 8, 1, 3, 2, 14, 9],
        ];
        accepted(left, &table.concat(), true);
        let right = "input: a up; output: pow; operators E: up 9 right pow; rules M: ^E @P; P: a; end";
        accepted(right, &[vec![8, 7, 9], vec![3, 0, 9], vec![8, 4, 7, 7, 8, 7, 5, 0, 1, 4, 1, 1, 8, 9]].concat(), true);
    }

    #[test]
    fn as_written_out() {
        let text = "input: p q; output: x y; operators E: q 015 right y p 1 left x; rules M: ^E @P; P: ; Level0: ; end";
        let plain = "input : p q ; output : x y ;  rules M : @Level1 ; P : ; Level0 : ; \
                     Level1: @Level2{[| p: @Level2 .x|*:>]}; Level2: @P[| q: @Level2 .y|*:]; end ";
        assert_eq!(written_out(text.as_bytes()).map(|text| String::from_utf8_lossy(&text).into_owned()), Some(plain.to_string()));
        same(text, plain);
        // Strings of any bytes.
        let text = b"input: p '\xff\xfe'; output: x '\x00'; operators E: '\xff\xfe' 1 left '\x00'; rules M: ^E @M; end";
        assert!(matches!(process(text, MAX_TABLE), Answer::Accepted { finishing: false, .. }));
        // Pair after pair in the order of first use, each once.
        same(
            &actions("{[ | p: ^F @Q ^E @P > | *: ^F @P >> ] ^F @Q } ^E @Q"),
            &format!(
                "{HEAD} rules M: {{[ | p: @R1 @R3 > | *: @R4 >> ] @R1 }} @R6; P: r; Q: ; C>>t: >>v; R1: @R2 {{[ | p: @R2 .x | *: > ]}}; \
                 R2: @Q [ | q: @R2 .y | *: ]; R3: @P {{[ | p: @P .x | *: > ]}}; R4: @R5 {{[ | p: @R5 .x | *: > ]}}; \
                 R5: @P [ | q: @R5 .y | *: ]; R6: @Q {{[ | p: @Q .x | *: > ]}}; end"
            ),
        );
        // One alternative an operator, in the section's order, also where outputs agree.
        same(
            &format!("{HEAD} operators E: r 4 left x p 4 left x q 4 left y; rules M: ^E @M; end"),
            &format!("{HEAD} rules M: @a; a: @M {{[ | r: @M .x | p: @M .x | q: @M .y | *: > ]}}; end"),
        );
    }

    #[test]
    fn the_section() {
        // O1
        refused(2, &section("~"), 1);
        for entries in ["p 1 left x~, q 1 left x", "p 1 left ~= x", "p 1 ~x", "p ~left x", "p ~, 1 left x", "p ~( 1 left x"] {
            refused(2, &section(entries), 1 + 3 * usize::from(entries.contains("~left")));
        }
        refused(2, &section("p 1 left x q~"), 1);
        refused(2, "operators~", 0);
        // O2
        for side in ["'left'", "LEFT", "lefts", "end", "operators", "n23456789012345678901234567890123", "70"] {
            refused(2, &section(&format!("p 1 ~{side} x")), side.len());
        }
        for head in ["operator", "Operators", "left", "'operators'"] {
            refused(2, &format!("~{head} E: p 1 left x;"), head.len());
        }
        let free = "input: left right operators; output: left operators right; operators left: right 1 left operators operators 1 left left;";
        same(
            &format!("{free} rules operators: ^left @operators; end"),
            "input: left right operators; output: left operators right;
             rules operators: @a; a: @operators {[ | right: @operators .operators | operators: @operators .left | *: > ]}; end",
        );
        same(
            "operators operators: left 1 left right; input: left; output: right; rules left: @right; right: ; end",
            "rules M: @N; N: ; end",
        );
        // O3
        same(&section("'p' 1 left 'x'"), "rules M: ; end");
        // O4
        let later = "operators E: p 1 left x; input: p; output: x; rules M: ^E @M; end";
        same(later, "input: p; output: x; rules M: @a; a: @M {[ | p: @M .x | *: > ]}; end");
        // O5
        for level in ["0", "16", "000", "016", "65535", "65536", "65537", "99999999999999999999999999999999999999999999"] {
            refused(9, &section(&format!("zz ~{level} 'left' $")), level.len());
        }
        for level in ["1", "15", "015", "00000000000000000000000000000000000000000000000000001"] {
            same(&section(&format!("p {level} right x")), "rules M: ; end");
        }
        // O6
        refused(4, &format!("{HEAD} operators E: p 1 left x; operators ~E: q 1 left x; rules M: ; end"), 1);
        for name in ["p", "x", "t", "f", "M", "m", "v"] {
            same(&format!("{HEAD} operators {name}: p 1 left x; rules M: ; end"), "rules M: ; end");
        }
        for action in ["@~E", ".~E", "g(~E)", "#~E", "~E", "[@~E|*:]", "[~E|*:]", "[|~E:]"] {
            refused(5, &actions(action), 1);
        }
        refused(2, "operators ~'E': p 1 left x;", 3);
        refused(5, &format!("{HEAD} operators E: p 1 left x; mechanism n: h(~E); rules M: ; end"), 1);
        // O7
        refused(3, &section("~zz 1 left x"), 2);
        refused(3, &section("p 1 left ~zz"), 2);
        refused(5, &section("~x 1 left x"), 1);
        refused(5, &section("p 1 left ~p"), 1);
        refused(3, &section("~m 1 left x"), 1);
    }

    #[test]
    fn both_sides_and_twice() {
        // O8
        same(&section("p 1 left x q 2 right x r 1 left x"), "rules M: ; end");
        same(&format!("{HEAD} operators E: p 1 left x; operators F: p 1 right x; rules M: ; end"), "rules M: ; end");
        refused(45, &section("p 1 left x ~'p' 2 left y"), 3);
        refused(45, &section("p 1 left x ~p 1 left x"), 1);
        // O9
        refused(45, &section("p 1 left x ~q 1 right y"), 1);
        refused(45, &section("p 1 left x q 2 right x ~r 1 right zz"), 1);
        refused(45, &section("p 15 left x ~q 015 right y"), 1);
        // O10
        refused(3, &section("p 1 left x ~zz 1 right x"), 2);
        refused(45, &section("p 1 left x ~x 1 right x"), 1);
        refused(5, &section("p 1 left x ~x 1 left x"), 1);
        refused(5, &section("p 1 left ~q q 1 right x"), 1);
        refused(45, &section("p 1 left x ~q 1 right q"), 1);
    }

    #[test]
    fn the_action() {
        // O11
        for action in
            ["[~^E @P | *:]", "^E @P ~(v)", "^~@E", "^~^E @P", "^E ~.x", ".~^E", "@~^E", "[|~^E @P:]", "^E ~^E @P", "^E @~^E"]
        {
            refused(2, &actions(action), 1);
        }
        refused(2, &actions("^~'E' @P"), 3);
        refused(2, &actions("^E @~'P'"), 3);
        refused(2, &actions("^~end @P"), 3);
        refused(9, &actions("^~n23456789012345678901234567890123 @P"), 33);
        refused(9, &actions("^E @~n23456789012345678901234567890123 $"), 33);
        refused(8, &format!("{HEAD} operators E: p 1 left x; rules M: ; C>>t: ^E @M ~; end"), 1);
        refused(8, &format!("{HEAD} operators E: p 1 left x; rules M: ; C>>t: ~>> ^E @M; end"), 2);
        // O12
        refused(3, &actions("^~zz @zz"), 2);
        refused(5, &actions("^~p @zz"), 1);
        refused(5, &actions("^~P @P"), 1);
        refused(3, &actions("^~m @P"), 1);
        refused(3, &actions("^E @~zz"), 2);
        refused(3, &actions("^E @~m"), 1);
        for rule in ["C", "f", "p", "E", "t"] {
            refused(5, &actions(&format!("^E @~{rule}")), 1);
        }
        refused(5, "input: p; output: x; mechanism m: f; operators E: p 1 left x; rules M: ^E @~f; f: ; end", 1);
        // O13
        same(
            "input: p; output: x; operators E: p 1 left x; rules M: ; N: >> ^E @M; end",
            "input: p; output: x; rules M: ; N: >> @a; a: @M {[ | p: @M .x | *: > ]}; end",
        );
        // O18
        accepted(
            "input: p; output: x; operators E: p 2 right x; rules M: ? ^E @M; end",
            &[4, 8, 5, 9, 8, 1, 7, 7, 8, 5, 5, 0, 1, 4, 1, 0, 8, 9],
            true,
        );
    }

    fn list(count: usize, item: impl Fn(usize) -> String) -> String {
        (0..count).map(item).collect()
    }

    /// So many rules, of which two use a section of 15 levels and one of one level, and so many tokens.
    fn limited(rules: usize, tokens: usize) -> String {
        let levels = list(15, |i| format!("p{i} {} left x ", i + 1));
        let rest = list(rules - 3, |i| format!("r{i}: ; "));
        format!(
            "input: {} ; output: x; operators E: {levels}; operators F: p0 7 right x; rules M: ^E @N ^E @N ~^F @N; N: ^F @N; L: ; {rest} end",
            list(tokens, |i| format!("p{i} "))
        )
    }

    #[test]
    fn limits() {
        let good = |text: String| {
            let text = text.replace('~', "");
            assert!(matches!(process(text.as_bytes(), MAX_TABLE), Answer::Accepted { .. }), "{text}");
        };
        // 128 rules: 16 are made.
        good(limited(112, 20));
        refused(9, &limited(113, 20), 1);
        // At the first use of the pair that passes.
        refused(9, &limited(128, 20).replace('~', "").replace("^E @N ^E", "~^E @N ^E"), 1);
        // 512 names: the tokens, the output token, the sections, the rules, the rules made.
        good(limited(10, 512 - 1 - 2 - 10 - 16));
        refused(9, &limited(10, 513 - 1 - 2 - 10 - 16), 1);
        // 64 operators of a level, if the section is used.
        let wide = |count: usize, action: &str| {
            let (tokens, entries) = (list(count, |i| format!("p{i} ")), list(count, |i| format!("p{i} 3 right x ")));
            format!("input: {tokens}; output: x; operators E: {entries}; rules M: {action}; end")
        };
        good(wide(64, "^E @M"));
        good(wide(65, ""));
        refused(9, &wide(65, "? ~^E @M ^E @M"), 1);
        // After 3 to 8, before 20.
        refused(7, &wide(65, "^E @M ~>"), 1);
        refused(9, &wide(65, &format!("? ~^E @M {}", "?".repeat(5_000))), 1);
        let text = wide(64, &format!("^E @M {}", "?".repeat(5_000)));
        assert_eq!(process(text.as_bytes(), MAX_TABLE), Answer::Refused { number: 20, start: text.len(), len: 0 });
    }
}
