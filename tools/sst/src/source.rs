//! A text with its words, its tree and what it declares.

use crate::place::{place, quoted};
use reference::processor::{Alternative, At, Node, Outline, Selector, Word, outline};

pub struct Source<'a> {
    /// As the file is named in messages.
    pub name: &'a str,
    pub text: &'a [u8],
    pub outline: Outline,
    frame: Frame<'a>,
}

/// What stands around a part that is read by itself: the sections of its common part before it, and behind it a rule a line for each
/// that the common part lists.
#[derive(Clone, Copy, Default)]
pub struct Frame<'a> {
    pub name: &'a str,
    /// Where the part begins and ends.
    pub front: usize,
    pub end: usize,
    /// The lines of the list in the common part.
    pub listed: &'a [usize],
}

impl<'a> Source<'a> {
    pub fn new(name: &'a str, text: &'a [u8]) -> Source<'a> {
        Source::framed(name, text, Frame { end: text.len() + 1, ..Frame::default() })
    }

    pub fn framed(name: &'a str, text: &'a [u8], frame: Frame<'a>) -> Source<'a> {
        Source { name, text, outline: outline(text), frame }
    }

    pub fn word(&self, at: At) -> Word {
        self.outline.words[at]
    }

    /// The bytes of a word.
    pub fn spelling(&self, at: At) -> &'a [u8] {
        let word = self.word(at);
        &self.text[word.start..word.start + word.len]
    }

    /// The word that begins at a byte of the text; the end of the text for any other.
    pub fn at(&self, start: usize) -> At {
        let words = &self.outline.words;
        words.iter().position(|word| word.start == start).unwrap_or(words.len() - 1)
    }

    /// The line of a word, with its file where that is another one.
    pub fn line(&self, at: At) -> String {
        let Frame { name, front, end, listed } = self.frame;
        let start = self.word(at).start;
        let line = |from: usize| place(&self.text[from..], start - from).line;
        if start >= end {
            let own = listed.get(line(end) - 1);
            return own.map_or_else(|| name.to_string(), |own| format!("{own} of {name}"));
        }
        if start < front { format!("{} of {name}", line(0)) } else { line(front).to_string() }
    }

    /// A word as it is quoted in messages.
    pub fn quoted(&self, at: At) -> String {
        quoted(self.spelling(at))
    }
}

/// How many words of the text actions are.
pub fn words_in(nodes: &[Node]) -> usize {
    let given = |given: &Option<(At, At)>| if given.is_some() { 4 } else { 1 };
    let words = |node: &Node| match node {
        Node::Bare { given: constant, .. } => given(constant),
        Node::Any | Node::Exit(_) | Node::Return { value: None, .. } => 1,
        Node::Emit(_) | Node::Signal(_) | Node::Call(_) | Node::Return { value: Some(_), .. } => 2,
        Node::Operators(_) => 4,
        Node::Cycle(nodes) => 2 + words_in(nodes),
        Node::Choice { by, alternatives } => {
            selector_words(by)
                + 1
                + alternatives.iter().map(|alternative| head_words(alternative) + words_in(&alternative.nodes)).sum::<usize>()
        }
    };
    nodes.iter().map(words).sum()
}

/// The words of a choice up to its first bar.
pub fn selector_words(by: &Selector) -> usize {
    match by {
        Selector::Token => 1,
        Selector::Rule(_) => 3,
        Selector::Operation { given: None, .. } => 2,
        Selector::Operation { given: Some(_), .. } => 5,
    }
}

/// A bar, labels with commas between them or `*`, and a colon.
pub fn head_words(alternative: &Alternative) -> usize {
    1 + 2 * alternative.labels.len().max(1)
}
