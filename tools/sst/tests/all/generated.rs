//! Generated programs, good and bad: no run panics, each place is the library's, each case has a sentence of its own, and each way round
//! is found.

use crate::sst;
use reference::ffi::Library;
use reference::quiet::{Measured, Measurer};
use reference::texts::{self, Seed};
use reference::{chains, choosers, faults, limits, precedence};
use sst::Status;

/// Sentences that say no more than the number does.
const GENERAL: [&str; 8] = [
    "this is declared nowhere, or",
    "this is declared twice, or",
    "this is declared, but not",
    "this label is repeated",
    "the rule does not return as",
    "this passes a limit",
    "this contradicts another",
    "this is refused",
];

/// What the library says of a text: the number, and the line and column of the part at fault.
fn library(text: &[u8]) -> (Measured, String) {
    let measured = Library.measure(text, &mut vec![0; 8192]);
    let before = &text[..measured.processed.start as usize];
    let line = 1 + before.iter().filter(|byte| **byte == b'\n').count();
    let column = 1 + before.iter().rev().take_while(|byte| **byte != b'\n').count();
    (measured, format!("<stdin>:{line}:{column}: fault {}: ", measured.processed.number))
}

fn check(text: &[u8], label: &str) -> u16 {
    let (measured, place) = library(text);
    let number = measured.processed.number;
    let ended = sst(&["check", "-"], text);
    let shown = || format!("{label}\n{}\n{}", String::from_utf8_lossy(text), ended.err);
    if number == 0 {
        assert_eq!(ended.status, Status::Yes, "{}", shown());
        let words = format!("<stdin>: {} word", measured.processed.words);
        assert!(ended.out.replace(',', "").starts_with(&words), "{}", shown());
        let warned = ended.err.contains("warning: not finishing: ");
        assert_eq!(warned, measured.processed.finishing == 0, "{}", shown());
    } else {
        assert_eq!(ended.status, Status::No, "{}", shown());
        assert!(ended.err.starts_with(&place) && ended.out.is_empty(), "{}", shown());
        assert!(!GENERAL.iter().any(|sentence| ended.err.contains(sentence)), "{}", shown());
    }
    number
}

#[test]
fn texts_of_all_sorts() {
    let mut met = [0; 50];
    for number in 0..400 {
        let seed = &mut Seed::new(number);
        met[usize::from(check(&texts::text(seed, 30), &format!("text {number}")))] += 1;
        met[usize::from(check(&precedence::text(seed, 20), &format!("operators {number}")))] += 1;
        met[usize::from(check(&faults::several(seed), &format!("several {number}")))] += 1;
    }
    for number in [0, 1, 2, 3, 4, 5, 6, 7, 8, 9, 45] {
        assert!(met[number] > 3, "{number} was met {} times", met[number]);
    }
}

#[test]
fn planted_faults() {
    for sort in 0..faults::SORTS {
        let fault = faults::plant(&mut Seed::new(sort as u64), sort);
        assert_eq!(check(&fault.text, &format!("fault {sort}")), fault.number);
    }
    for sort in 0..faults::operators::SORTS {
        let fault = faults::operators::plant(&mut Seed::new(sort as u64), sort);
        assert_eq!(check(&fault.text, &format!("operators' fault {sort}")), fault.number);
    }
    for (i, sort) in faults::entries::Sort::all().iter().enumerate() {
        check(&faults::entries::plant(&mut Seed::new(i as u64), sort).text, &format!("entries' fault {i}"));
    }
}

#[test]
fn texts_at_the_limits() {
    for limit in 0..limits::LIMITS.len() {
        for sample in limits::samples(&mut Seed::new(limit as u64), limit) {
            let label = format!("{} of {}", sample.amount, limits::LIMITS[limit].0);
            let number = check(&sample.text, &label);
            assert!(sample.number.is_none_or(|wanted| wanted == number), "{label}");
        }
    }
    for (i, (text, number)) in limits::beyond().iter().enumerate() {
        assert_eq!(check(text, &format!("beyond {i}")), *number);
    }
    for number in 0..40 {
        check(&precedence::crowd(&mut Seed::new(number)).text, &format!("crowd {number}"));
    }
}

#[test]
fn ways_round() {
    let mut no = 0;
    for number in 0..600 {
        let text = choosers::text(&choosers::program(&mut Seed::new(number)));
        no += u32::from(way(text.as_bytes()));
        way(&chains::nest(&mut Seed::new(number), 8));
    }
    for number in 0..8 {
        let text = choosers::text(&choosers::large(&mut Seed::new(number), true));
        no += u32::from(way(text.as_bytes()));
    }
    assert!(no > 150, "{no} ways round");
}

/// Whether a text is not finishing; then `why` shows a way, which it has checked by the table.
fn way(text: &[u8]) -> bool {
    let (measured, _) = library(text);
    let ended = sst(&["why", "-"], text);
    let shown = || format!("{}\n{}{}", String::from_utf8_lossy(text), ended.out, ended.err);
    if measured.processed.number != 0 || measured.processed.finishing == 1 {
        assert!(!ended.out.contains("not finishing"), "{}", shown());
        return false;
    }
    assert_eq!(ended.status, Status::No, "{}", shown());
    assert!(ended.out.starts_with("<stdin>: not finishing: ") && ended.out.lines().count() > 1, "{}", shown());
    true
}

#[test]
fn other_subcommands_take_any_text() {
    for number in 0..150 {
        let seed = &mut Seed::new(number);
        let text = if number % 2 == 0 { texts::text(seed, 30) } else { precedence::text(seed, 20) };
        let (measured, _) = library(&text);
        for arguments in [
            &["list", "--names", "-"][..],
            &["header", "--table", "-"],
            &["run", "--budget", "200", "-", "0", "1", "2", "--", "0", "1"],
            &["bound", "-", "5", "1"],
        ] {
            let ended = sst(arguments, &text);
            let shown = || format!("{arguments:?} {number}\n{}\n{}", String::from_utf8_lossy(&text), ended.err);
            assert!(ended.status < Status::Unusable, "{}", shown());
            assert!(measured.processed.number == 0 || ended.status == Status::No, "{}", shown());
        }
    }
}
