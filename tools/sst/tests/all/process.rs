//! The command as a process: streams that are closed or full, files that cannot be read, and statuses.

use crate::{examples, root, sst_at};
use reference::side::Reference;
use std::process::{Command, Output};

/// Runs a line of a shell; `$S` is the command.
fn shell(line: &str) -> Output {
    let output = Command::new("sh").args(["-c", line]).env("S", env!("CARGO_BIN_EXE_sst")).env_remove("NO_COLOR").output();
    output.expect("a shell")
}

#[track_caller]
fn ends(line: &str, status: i32, message: &str) {
    root();
    let output = shell(line);
    let err = String::from_utf8_lossy(&output.stderr);
    assert_eq!(output.status.code(), Some(status), "{line}: {err}");
    assert!(err.contains(message), "{line}: {err}");
}

#[test]
fn statuses() {
    ends("\"$S\" check examples/pages.ssl", 0, "");
    ends("printf 'rules M: > ; end' | \"$S\" check -", 1, "<stdin>:1:10: fault 7: ");
    ends("\"$S\" check examples/footnote.ssl", 0, "warning: not finishing");
    ends("\"$S\" check examples/footnote.ssl --require-finishing", 1, "refused: not finishing");
    ends("\"$S\" check --warn=none examples/footnote.ssl", 0, "");
}

#[test]
fn files_that_cannot_be_read_or_written() {
    ends("\"$S\" check none.ssl", 2, "none.ssl cannot be read: there is no such file");
    ends("\"$S\" check examples", 2, "examples cannot be read: it is a directory");
    ends("\"$S\" check examples/pages.ssl none.ssl", 2, "none.ssl");
    ends("\"$S\" check - <examples", 2, "<stdin> cannot be read");
    ends("\"$S\" check - <&-", 2, "standard input is closed");
    ends("\"$S\" check - </dev/null", 1, "fault 2: the text ends here");
    ends("\"$S\" check /dev/zero", 2, "has more than");
    for command in ["check examples/pages.ssl", "list examples/pages.ssl", "why examples/pages.ssl", "header examples/pages.ssl"]
    {
        ends(&format!("\"$S\" {command} >/dev/full"), 2, "cannot be written");
    }
    ends("\"$S\" list --names examples/margins.ssl | head -n 1", 0, "");
}

#[test]
fn wrong_use() {
    for (arguments, message) in [
        ("", "sst SUBCOMMAND"),
        ("chek x", "there is no subcommand `chek`"),
        ("check", "check wants a file"),
        ("check --quick x", "there is no option `--quick` here"),
        ("check --warn some x", "`--warn` takes"),
        ("why", "a file is missing"),
        ("why a b", "`b` is one argument too many"),
        ("carry a", "carry wants the old text and the new one"),
        ("carry examples/pages.ssl examples/pages.ssl -o x", "wants `--walk FILE`"),
        ("part examples/pages/common.ssl examples/pages/line.ssl", "part wants a common part, a part and `-o FILE`"),
        ("part examples/pages/common.ssl examples/pages/line.ssl -o /dev/full", "/dev/full cannot be written"),
        ("chart", "a file is missing"),
        ("chart examples/pages.ssl -o /dev/full", "/dev/full cannot be written"),
        ("chart examples/pages.ssl --figures none", "none cannot be read"),
        ("table examples/pages.ssl", "table wants `-o FILE`"),
        ("verify examples/pages.ssl", "verify wants a text and a table file"),
        ("bound examples/pages.ssl 1", "bound wants"),
        ("bound examples/pages.ssl 18446744073709551616 1", "wants a number from 0 to"),
        ("bound examples/pages.ssl 1 65536", "wants a number from 0 to 65535"),
        ("header --prefix 2a examples/pages.ssl", "no name of C"),
        ("run examples/pages.ssl --budget x", "--budget wants a number"),
    ] {
        ends(&format!("\"$S\" {arguments}"), 2, message);
    }
}

#[test]
fn no_colours_off_a_terminal() {
    root();
    let output = shell("printf 'rules M: > ; end' | \"$S\" check -");
    assert!(!output.stderr.contains(&0x1b));
}

#[test]
fn progress_on_a_terminal() {
    let arguments = ["figures", "examples/pages.ssl", "examples/shelf/novel.book", "none.book"];
    let shown = sst_at(&Reference, &arguments, b"", true);
    let lines = "\r\x1b[Kbook 1 of 2: examples/shelf/novel.book\r\x1b[K\r\x1b[Kbook 2 of 2: none.book\r\x1b[Ksst: none.book ";
    assert!(shown.err.starts_with(lines), "{:?}", shown.err);
    let quiet = sst_at(&Reference, &arguments, b"", false);
    assert!(quiet.err.starts_with("sst: none.book "), "{:?}", quiet.err);
    assert_eq!(quiet.out, shown.out);
}

#[test]
fn headers_compile() {
    for path in examples() {
        let compiled = shell(&format!(
            "\"$S\" header --table {path} | gcc -std=c99 -Wall -Wextra -Wno-unused -pedantic -Werror -fsyntax-only -xc -"
        ));
        assert!(compiled.status.success(), "{path}: {}", String::from_utf8_lossy(&compiled.stderr));
    }
}

#[test]
fn certificates_have_the_files_digests() {
    for path in examples() {
        let line = format!(
            "\"$S\" table --not-finishing {path} -o target/sst-tests/digest.sst >/dev/null; \"$S\" certify {path}; \
             sha256sum <{path}; sha256sum <target/sst-tests/digest.sst"
        );
        let output = shell(&line);
        let text = String::from_utf8_lossy(&output.stdout);
        let digests: Vec<&str> = text.lines().filter_map(|line| line.strip_suffix("  -")).collect();
        let certified = text.starts_with(&format!("Certificate of {path}\n"));
        assert_eq!(certified, !path.contains("footnote.") && !path.contains("changed-over"), "{text}");
        assert!(!certified || digests.iter().all(|digest| text.contains(&format!("SHA-256 {digest}"))), "{text}");
        assert!(!certified || text.contains("Pagination finishes."), "{text}");
    }
}
