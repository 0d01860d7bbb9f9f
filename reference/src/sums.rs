//! Sums of operands and operators in parentheses or not, and their postfix form by precedence climbing: without the nested rules.

use crate::texts::Seed;

/// An operator: its input and output token, its level and its side.
#[derive(Clone, Copy, PartialEq, Eq, Debug)]
pub struct Operator {
    pub input: u16,
    pub output: u16,
    pub level: u16,
    pub left: bool,
}

/// The operators of a section, in its order.
#[derive(Clone, Debug)]
pub struct Section {
    pub operators: Vec<Operator>,
}

/// Input tokens: four operands, the parentheses and the mark behind a sum; then one for each operator. An operand's output token is its own number.
pub const OPERANDS: u16 = 4;
const OPEN: u16 = 4;
const CLOSE: u16 = 5;
pub const STOP: u16 = 6;
const FIRST: u16 = 7;
const HIGHEST: usize = 15;

impl Section {
    /// A section of some operators; of each level the same side.
    pub fn new(seed: &mut Seed) -> Section {
        let levels: Vec<u16> = (0..seed.within(1, HIGHEST)).map(|_| seed.within(1, HIGHEST) as u16).collect();
        let sides: Vec<bool> = (0..=HIGHEST).map(|_| seed.one_in(2)).collect();
        let count = seed.within(1, 30) as u16;
        let operator = |i| {
            let level = *seed.of(&levels);
            // Some share an output token.
            Operator { input: FIRST + i, output: OPERANDS + i / 2 * 2, level, left: sides[usize::from(level)] }
        };
        Section { operators: (0..count).map(operator).collect() }
    }

    /// A program that reads a sum up to its mark and writes it in postfix order.
    pub fn text(&self, seed: &mut Seed) -> String {
        let count = self.operators.len() as u16;
        let inputs: String = (0..count).map(|i| format!("i{i} 's{i}' ")).collect();
        let outputs: String = (0..count).map(|i| format!("o{i} ")).collect();
        let mut entries = String::new();
        for operator in &self.operators {
            let (input, output) = (operator.input - FIRST, operator.output - OPERANDS);
            let input = if seed.one_in(2) { format!("i{input}") } else { format!("'s{input}'") };
            let side = if operator.left { "left" } else { "right" };
            entries.push_str(&format!("{input} {} {side} o{output} ", operator.level));
        }
        let mut sections = [
            format!("input: a b c d open '(' close ')' stop {inputs};"),
            format!("output: A B C D {outputs};"),
            format!("operators Sum: {entries};"),
        ];
        sections.swap(0, seed.below(3));
        format!("{} rules M: ^Sum @P stop; P: [ | a: .A | b: .B | c: .C | d: .D | '(': ^Sum @P ')' ]; end", sections.join(" "))
    }

    /// A sum that is nested at most so deep.
    pub fn sum(&self, seed: &mut Seed, depth: usize) -> Vec<u16> {
        let mut out = Vec::new();
        for i in 0..seed.within(1, 9) {
            if i > 0 {
                out.push(seed.of(&self.operators).input);
            }
            if depth > 0 && seed.one_in(5) {
                out.push(OPEN);
                out.extend(self.sum(seed, depth - 1));
                out.push(CLOSE);
            } else {
                out.push(seed.below(OPERANDS.into()) as u16);
            }
        }
        out
    }

    /// The output tokens of a sum in postfix order.
    pub fn postfix(&self, sum: &[u16]) -> Vec<u16> {
        let (mut rest, mut out) = (sum, Vec::new());
        self.climb(&mut rest, 0, &mut out);
        assert!(rest.is_empty(), "no sum: {sum:?}");
        out
    }

    /// An operand, and behind it operators of that level or higher ones with what they take to their right.
    fn climb(&self, rest: &mut &[u16], least: u16, out: &mut Vec<u16>) {
        self.operand(rest, out);
        while let Some(operator) = self.operators.iter().find(|operator| rest.first() == Some(&operator.input))
            && operator.level >= least
        {
            *rest = &rest[1..];
            self.climb(rest, if operator.left { operator.level + 1 } else { operator.level }, out);
            out.push(operator.output);
        }
    }

    fn operand(&self, rest: &mut &[u16], out: &mut Vec<u16>) {
        let token = rest[0];
        *rest = &rest[1..];
        if token == OPEN {
            self.climb(rest, 0, out);
            assert_eq!(rest.first(), Some(&CLOSE));
            *rest = &rest[1..];
        } else {
            out.push(token);
        }
    }
}

#[cfg(test)]
mod tests {
    use super::*;
    use crate::processor::{Answer, MAX_TABLE, process, resolve};
    use crate::rules;
    use crate::tables::bytes;
    use crate::walker::{self, Walk};

    /// The number and the output tokens of a walk over a text's table.
    fn walk(text: &str, tokens: &[u16]) -> (u16, Vec<u16>) {
        let answer = process(text.as_bytes(), MAX_TABLE);
        let Answer::Accepted { table, finishing: true } = answer else { panic!("{text}: {answer:?}") };
        let mut events = vec![0; 6 * tokens.len() + 6];
        let done = walker::whole(&bytes(&table), &bytes(tokens), &[], 1_000_000, &mut Walk::fresh(), &mut events);
        let output = events.chunks(6).take(done.written as usize).map(|event| {
            assert_eq!(event[..2], [0, 1]);
            u16::from_be_bytes([event[2], event[3]])
        });
        (done.number, output.collect())
    }

    #[test]
    fn a_sum_by_hand() {
        let text = "input: a b c d e plus '+' times '*' power '^' minus '-'; output: A B C D E add multiply raise subtract;
            operators Sum: '+' 1 left add '-' 1 left subtract '*' 2 left multiply '^' 3 right raise;
            rules M: ^Sum @P; P: [ | a: .A | b: .B | c: .C | d: .D | e: .E ]; end";
        // a + b * c ^ d ^ e
        assert_eq!(walk(text, &[0, 5, 1, 6, 2, 7, 3, 7, 4]), (0, vec![0, 1, 2, 3, 4, 7, 7, 6, 5]));
        // a - b + c, a * b - c * d, a ^ b * c
        assert_eq!(walk(text, &[0, 8, 1, 5, 2]), (0, vec![0, 1, 8, 2, 5]));
        assert_eq!(walk(text, &[0, 6, 1, 8, 2, 6, 3]), (0, vec![0, 1, 6, 2, 3, 6, 8]));
        assert_eq!(walk(text, &[0, 7, 1, 6, 2]), (0, vec![0, 1, 7, 2, 6]));
        // An operand is missing: what was read before it is written.
        assert_eq!(walk(text, &[0, 5]), (30, vec![0]));
        assert_eq!(walk(text, &[]), (30, vec![]));
    }

    #[test]
    fn climbing_by_hand() {
        let operator = |input, output, level, left| Operator { input, output, level, left };
        let operators =
            vec![operator(7, 40, 1, true), operator(8, 41, 2, true), operator(9, 42, 3, false), operator(10, 43, 1, true)];
        let section = Section { operators };
        assert_eq!(section.postfix(&[0, 7, 1, 8, 2, 9, 3, 9, 0]), [0, 1, 2, 3, 0, 42, 42, 41, 40]);
        assert_eq!(section.postfix(&[0, 10, 1, 7, 2]), [0, 1, 43, 2, 40]);
        assert_eq!(section.postfix(&[0, 8, OPEN, 1, 7, 2, CLOSE]), [0, 1, 2, 40, 41]);
    }

    #[test]
    fn sums_come_out_in_postfix_order() {
        let mut deep = 0;
        for n in 0..600 {
            let mut seed = Seed::new(n ^ 0x5555_0000);
            let section = Section::new(&mut seed);
            let text = section.text(&mut seed);
            for _ in 0..6 {
                let sum = section.sum(&mut seed, 2 + n as usize % 4);
                let tokens = [&sum[..], &[STOP]].concat();
                let own = rules::walk(&resolve(text.as_bytes()).expect("accepted"), &tokens, &[], 0, 100_000);
                let (number, output) = walk(&text, &tokens);
                let values: Vec<u16> = own.events.iter().map(|event| event[1]).collect();
                assert_eq!((own.reason, values), (Some(number), output.clone()), "{n}: {text} {sum:?}");
                let postfix = section.postfix(&sum);
                if number == 33 {
                    // Pending calls are a matter of the levels: what was written is a beginning.
                    deep += 1;
                    assert!(postfix.starts_with(&output), "{n}: {text} {sum:?}");
                } else {
                    assert_eq!((number, output), (0, postfix), "{n}: {text} {sum:?}");
                }
            }
        }
        assert!((1..1_800).contains(&deep), "{deep}");
    }

    /// Left operators in a row need no more calls than one, right ones one more each.
    #[test]
    fn operators_in_a_row() {
        let sum = |operators: usize| -> Vec<u16> { (0..=2 * operators).map(|i| if i % 2 == 0 { 0 } else { 1 }).collect() };
        let text = |side: &str| format!("input: a o; output: x; operators E: o 1 {side} x; rules M: ^E @P; P: a; end");
        assert_eq!(walk(&text("left"), &sum(1_000)), (0, vec![0; 1_000]));
        assert_eq!(walk(&text("right"), &sum(62)), (0, vec![0; 62]));
        assert_eq!(walk(&text("right"), &sum(63)).0, 33);
    }
}
