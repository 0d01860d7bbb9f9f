//! The rules of a program by their names, each with its words, a call's operand being the called rule's name instead of its location
//! (A.14).

use super::{At, MAX_TABLE, Parser, Program, assemble_with_calls, operators, resolve, words};

/// The name of a rule. No written rule has the name of one that is made for operators.
#[derive(Clone, PartialEq, Eq, Hash, Debug)]
pub enum RuleName {
    Written(Vec<u8>),
    Made { section: Vec<u8>, operand: Vec<u8>, level: u16 },
}

/// A word of a rule, or the rule that is called where a call has its operand.
#[derive(Clone, PartialEq, Eq, Debug)]
pub enum Mark {
    Word(u16),
    Calls(RuleName),
}

/// A rule, the location of its first word, and its words.
#[derive(Clone, PartialEq, Eq, Debug)]
pub struct Marked {
    pub name: RuleName,
    pub start: usize,
    pub marks: Vec<Mark>,
}

/// A program's rules in the table's order.
#[derive(Clone, PartialEq, Eq, Debug)]
pub struct Marks {
    pub program: Program,
    pub rules: Vec<Marked>,
}

/// The rules of a text, or its number and the part at fault where the largest table is lent.
pub fn marks(text: &[u8]) -> Result<Marks, (u16, usize, usize)> {
    let program = resolve(text)?;
    let (table, starts, calls) = assemble_with_calls(&program);
    if table.len() > MAX_TABLE {
        return Err((20, text.len(), 0));
    }
    let names = names(text);
    let mut marks: Vec<Mark> = super::narrow(&table).into_iter().map(Mark::Word).collect();
    for (hole, rule) in calls {
        marks[hole - 1] = Mark::Calls(names[rule].clone());
    }
    let ends = starts[1..].iter().copied().chain([table.len() + 1]);
    let of =
        |((name, start), end): ((_, &usize), usize)| Marked { name, start: *start, marks: marks[start - 1..end - 1].to_vec() };
    let rules = names.iter().cloned().zip(&starts).zip(ends).map(of).collect();
    Ok(Marks { program, rules })
}

/// The names of an accepted program's rules: those that are written, then those that are made.
fn names(text: &[u8]) -> Vec<RuleName> {
    let words = words(text);
    let spelling = |at: At| text[words[at].start..words[at].start + words[at].len].to_vec();
    let mut parser = Parser::new(text, &words);
    assert!(parser.program().is_ok(), "an accepted program");
    let written = parser.tree.bodies.iter().map(|body| RuleName::Written(spelling(body.name)));
    let made = operators::first_uses(text, &words, &parser.tree).into_iter().map(|(used, level)| RuleName::Made {
        section: spelling(used.section),
        operand: spelling(used.rule),
        level,
    });
    written.chain(made).collect()
}

/// The words of the sections, as they are spelt.
pub fn sections(text: &[u8]) -> Vec<Vec<u8>> {
    super::parts::spellings(text).into_iter().take_while(|word| word != b"rules").collect()
}
