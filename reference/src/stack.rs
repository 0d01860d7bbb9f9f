//! The deepest stack of an entry that translates texts, measured with a painted stack over texts of all sorts.

use crate::ffi;
use crate::limits::{self, LIMITS};
use crate::programs::{self, Text};
use crate::texts::{self, Seed};

/// The painted stack: much more than an entry should need.
const STACK: usize = 1 << 20;

/// A text's name and bytes.
pub type Named = (String, Vec<u8>);

/// Texts that are timed, those around the limits, and small ones, good and damaged.
pub fn texts() -> Vec<Named> {
    let mut texts: Vec<Named> = Vec::new();
    for Text { name, text } in programs::timed().into_iter().flatten() {
        texts.push((format!("{name} of {} bytes", text.len()), text));
    }
    for (limit, (name, _)) in LIMITS.into_iter().enumerate() {
        for number in 0..4 {
            let samples = limits::samples(&mut Seed::new(number), limit);
            texts.extend(samples.into_iter().map(|sample| (format!("limit of {name}"), sample.text)));
        }
    }
    texts.push(("an update with its constant, 32 deep".to_string(), programs::deep_update()));
    texts.extend(limits::beyond().into_iter().map(|(text, number)| (format!("far beyond a limit, {number}"), text)));
    texts.extend((0..400).map(|n| (format!("text {n}"), texts::text(&mut Seed::new(n), 40))));
    texts
}

/// The most bytes of stack that a call over one of the texts needs, and the text's name; nothing where the stack cannot be measured.
pub fn deepest(texts: &[Named], mut call: impl FnMut(&[u8]) + Send) -> Option<(u64, &str)> {
    // What is called for the first time may be bound on the way: once without measuring.
    for (_, text) in texts {
        call(text);
    }
    let mut deepest = (0, "none");
    for (name, text) in texts {
        let used = ffi::stack_used(|| call(text), STACK)?;
        if used > deepest.0 {
            deepest = (used, name);
        }
    }
    Some(deepest)
}
