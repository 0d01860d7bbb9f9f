//! Table files: written and verified, and refused with any byte changed.

use crate::{examples, folder, sst};
use reference::parts::worked;
use sst::Status;

#[test]
fn written_files_are_verified() {
    for path in examples() {
        let out = format!("{}/written.sst", folder());
        let written = sst(&["table", "--not-finishing", &path, "-o", &out], b"");
        assert_eq!(written.status, Status::Yes, "{path}: {}", written.err);
        let verified = sst(&["verify", &path, &out], b"");
        assert_eq!(verified.status, Status::Yes, "{path}: {}", verified.err);
        assert!(verified.out.contains(": verified: this text's table, "), "{}", verified.out);
    }
}

#[test]
fn a_changed_byte_is_refused() {
    let (text, out) = ("examples/pages.ssl", format!("{}/changed.sst", folder()));
    sst(&["table", text, "-o", &out], b"");
    let file = std::fs::read(&out).expect("the file");
    let refused = |bytes: &[u8], label: &str| {
        let ended = sst(&["verify", text, "-"], bytes);
        assert_eq!(ended.status, Status::No, "{label}");
        assert!(ended.out.is_empty() && ended.err.contains("not the table file of"), "{label}: {}", ended.err);
    };
    for at in 0..file.len() {
        for bit in 0..8 {
            let mut changed = file.clone();
            changed[at] ^= 1 << bit;
            refused(&changed, &format!("bit {bit} of byte {at}"));
        }
        refused(&file[..at], &format!("cut after {at} bytes"));
    }
    refused(&[&file[..], b"\0"].concat(), "a byte more");
    assert_eq!(sst(&["verify", text, "-"], &file).status, Status::Yes);
}

#[test]
fn nothing_is_written_for_other_programs() {
    let out = format!("{}/none.sst", folder());
    _ = std::fs::remove_file(&out);
    assert_eq!(sst(&["table", "examples/footnote.ssl", "-o", &out], b"").status, Status::No);
    assert_eq!(sst(&["table", "-", "-o", &out], b"rules M: > ; end").status, Status::No);
    assert!(!std::path::Path::new(&out).exists());
    let ended = sst(&["table", "examples/pages.ssl", "-o", "/dev/full"], b"");
    assert_eq!(ended.status, Status::Unusable, "{}", ended.err);
    assert_eq!(sst(&["table", "examples/pages.ssl", "-o", "target/sst-tests"], b"").status, Status::Unusable);
}

#[test]
fn loading_and_admitting() {
    let (text, out) = ("examples/pages.ssl", format!("{}/admitted.sst", folder()));
    sst(&["table", text, "-o", &out], b"");
    assert_eq!(sst(&["load", &out], b"").out, format!("{out}: loaded: 80 words; its sender says finishing\n"));
    let admit = |names: &[u8]| sst(&["admit", &out, "--grant-names", "-", "--text", text], names);
    assert_eq!(admit(b"Place % all three\nRoom\nTurnPage\n").status, Status::Yes);
    for (names, phrase) in
        [(&b"Room\nTurnPage\n"[..], "Place(single)"), (b"Place\nTurnPage", "Room(single)"), (b"Place\nRoom", "TurnPage")]
    {
        let ended = admit(names);
        assert_eq!(ended.status, Status::No);
        assert!(ended.err.contains("refused 48") && ended.err.contains(&format!(": {phrase} in {text}:")), "{}", ended.err);
    }
    assert_eq!(admit(b"Rom").status, Status::Unusable);
    assert_eq!(sst(&["admit", &out, "--grant", "-"], &[0xff; 128]).status, Status::Yes);
    assert_eq!(sst(&["admit", &out, "--grant", "-"], b"").status, Status::No);
    assert_eq!(sst(&["admit", &out], b"").status, Status::Unusable);
}

#[test]
fn files_that_are_none() {
    let out = format!("{}/none-such.sst", folder());
    sst(&["table", "examples/pages.ssl", "-o", &out], b"");
    let file = std::fs::read(&out).expect("the file");
    for at in 0..file.len() {
        let ended = sst(&["load", "-"], &file[..at]);
        assert_eq!(ended.status, Status::No);
        assert!(ended.err.starts_with("<stdin>: refused 40: no table file: it has "), "{at}: {}", ended.err);
    }
}

/// Links texts that are written to files first; the place that is shown must be the one that was marked.
fn links(number: u16, texts: &[&str]) {
    let (texts, fault) = worked::example(number, texts, b"");
    let path = |i: usize| format!("{}/part-{i}.ssl", folder());
    texts.iter().enumerate().for_each(|(i, text)| std::fs::write(path(i), text).expect("a part"));
    let paths: Vec<String> = (0..texts.len()).map(path).collect();
    let arguments: Vec<&str> = ["link"].into_iter().chain(paths.iter().map(String::as_str)).collect();
    let ended = sst(&arguments, b"");
    let shown = || {
        format!(
            "{number} {:?}\n{}{}",
            texts.iter().map(|text| String::from_utf8_lossy(text)).collect::<Vec<_>>(),
            ended.out,
            ended.err
        )
    };
    let Some(fault) = fault else { return assert!(ended.status <= Status::No, "{}", shown()) };
    let before = &texts[fault.text][..fault.start];
    let line = 1 + before.iter().filter(|byte| **byte == b'\n').count();
    let column = 1 + before.iter().rev().take_while(|byte| **byte != b'\n').count();
    let place = format!("{}:{line}:{column}: fault {number}: ", path(fault.text));
    assert!(ended.status == Status::No && ended.err.starts_with(&place), "{}", shown());
    assert!(!ended.err.contains(" is ;") && !ended.err.contains("``"), "{}", shown());
}

#[test]
fn worked_examples_of_parts() {
    worked::PARTS.iter().for_each(|(number, common, part)| links(*number, &[common, part]));
    for (number, rules) in worked::RULES {
        links(*number, &[worked::COMMON, &format!("rules {rules} end")]);
    }
    worked::LINKS.iter().filter(|(_, texts)| (2..=17).contains(&texts.len())).for_each(|(number, texts)| links(*number, texts));
}
