//! Carrying: the worked examples by the command, and the edits of docs/CARRYING.md.

use crate::{Ended, folder, sst};
use reference::carry::worked::{WORKED, walk};
use sst::Status;

/// Runs `sst carry` on two texts, with a walk if there is one; the carried walk is in the last file.
fn carry(old: &str, new: &str, state: Option<&[u8]>) -> (Ended, Option<Vec<u8>>) {
    let [before, after, from, to] = ["old.ssl", "new.ssl", "from.walk", "to.walk"].map(|name| format!("{}/{name}", folder()));
    std::fs::write(&before, old).expect("a text");
    std::fs::write(&after, new).expect("a text");
    _ = std::fs::remove_file(&to);
    let Some(state) = state else { return (sst(&["carry", &before, &after], b""), None) };
    std::fs::write(&from, state).expect("a walk");
    (sst(&["carry", &before, &after, "--walk", &from, "-o", &to], b""), std::fs::read(&to).ok())
}

fn worked_examples() {
    for (number, old, new, places, carried) in WORKED {
        let (old, new) = (old.replace('~', ""), new.replace('~', ""));
        let (ended, written) = carry(&old, &new, Some(&walk(places).encode()));
        let shown = || format!("{number} {old}\n{new}\n{places:?}\n{}{}", ended.out, ended.err);
        if *number == 0 {
            assert_eq!(ended.status, Status::Yes, "{}", shown());
            assert_eq!(written.as_deref(), Some(&walk(carried).encode()[..]), "{}", shown());
        } else {
            assert_eq!((ended.status, written), (Status::No, None), "{}", shown());
            assert!(
                [": refused ", ": fault "].iter().any(|word| ended.err.contains(&format!("{word}{number}: "))),
                "{}",
                shown()
            );
        }
        let (listed, _) = carry(&old, &new, None);
        assert!(listed.status <= Status::No, "{}{}{}", shown(), listed.out, listed.err);
    }
}

const OLD: &str = "input: line 'l' blank plus width; output: placed add; operators Sum: plus 1 left add;
type Fit: fits tight full; mechanism Page: Room >> Fit Place TurnPage; rules
Book: {[ | line: @Line | blank: @Blank | *: > ]} ^Sum @Width;
Line: [ Room | fits, tight: | full: @Turn ] Place .placed;
Turn: TurnPage; Blank: Place; Width: width; Spare: ; end";

/// An edit of the text, and what is said of the rule Line.
#[track_caller]
fn edited(from: &str, to: &str, said: &str) {
    assert!(OLD.contains(from), "{from}");
    let (ended, _) = carry(OLD, &OLD.replacen(from, to, 1), None);
    assert!(ended.out.lines().any(|line| line.starts_with(said)), "{from} to {to}: {}{}", ended.out, ended.err);
}

fn edits() {
    edited(
        "{[ | line: @Line | blank: @Blank | *: > ]}",
        "do [ | line: @Line | blank: @Blank | *: > ] od",
        "rule Book, line 3: carried",
    );
    edited(" Place .placed", " Place  % a comment\n .placed", "rule Line, line 4: carried");
    edited("Blank: Place", "Blank: Place Place", "rule Line, line 4: carried");
    edited("Spare: ;", "", "rule Line, line 4: carried");
    edited(
        "@Turn ]",
        "@Spare ]",
        "rule Line, line 4: 52: it differs first in @Turn at target/sst-tests/old.ssl:4:37 and @Spare at ",
    );
    edited("fits, tight:", "tight, fits:", "rule Line, line 4: 52: it differs first in the choice at ");
    edited(".placed;", ".placed Place;", "rule Line, line 4: 52: it differs first in the end of the rule at ");
    edited(" tight full", " tight full none", "no walk is carried: 51: the sections differ first in `;` at ");
    edited("plus 1", "plus 2", "no walk is carried: 51: the sections differ first in `1` at ");
    let (cycle, shorter) = ("input: a; rules M: { a ? }; end", "input: a; rules M: a { ? }; end");
    let (ended, _) = carry(cycle, shorter, None);
    assert!(ended.out.contains("52: it differs first in the end of the cycle at "), "{}{}", ended.out, ended.err);
}

/// One after the other, as both write the same files.
#[test]
fn walks_and_edits() {
    worked_examples();
    edits();
}
