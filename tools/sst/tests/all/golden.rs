//! What each subcommand prints for each example and each text of docs/FAULTS.md, kept in tests/golden. With SST_GOLDEN=write the files are
//! written anew.

use crate::{Ended, examples, folder, sst};

/// A file of tests/golden with the arguments of a run; `@` stands for the text.
const RUNS: [(&str, &[&str]); 10] = [
    ("check", &["check", "@"]),
    ("check-json", &["check", "--json", "@"]),
    ("check-require-finishing", &["check", "--require-finishing", "--warn", "none", "@"]),
    ("why", &["why", "@"]),
    ("list-names", &["list", "--names", "@"]),
    ("header", &["header", "--table", "@"]),
    ("run", &["run", "--budget", "40", "@"]),
    ("bound", &["bound", "@", "100000", "8"]),
    ("table", &["table", "@", "-o", "target/sst-tests/golden.sst"]),
    ("table-not-finishing", &["table", "--not-finishing", "@", "-o", "target/sst-tests/golden-all.sst"]),
];

/// Figures of examples/recipes.ssl, cut to what a chart reads.
const RECIPES: &str = "rule Book, line 9: 1,200 executions, 96.0%
rule Amount, line 16: 50 executions, 4.0%
rule Ingredient, line 22: 0 executions, 0.0%
count 12:20 .lineEnd, rule Book, location 9: 1 execution
never 13:22 .bookEnd, rule Book, location 13
";

const COMMON: &str = "examples/pages/common.ssl";

/// Runs of their own, with what they read from standard input: walks that come somewhere, figures, table files.
const OTHERS: [(&[&str], &str); 40] = [
    (&["run", "examples/pages.ssl", "chapter", "line", "blankLine", "endOfBook", "--", "fits", "full"], ""),
    (&["run", "--quiet", "--book", "examples/shelf/torn.book", "examples/pages.ssl"], ""),
    (&["run", "--quiet", "examples/pages.ssl", "line", "--", "1"], ""),
    (&["run", "--budget", "12", "examples/footnote.ssl", "note", "--", "full", "full", "full"], ""),
    (&["run", "examples/pages.ssl", "lime"], ""),
    (&["run", "examples/pages.ssl", "line", "--", "fit"], ""),
    (&["run", "--quiet", "--allowance", "1", "examples/pages.ssl", "chapter", "--", "fits"], ""),
    (&["run", "--ask", "--quiet", "examples/pages.ssl", "line", "line", "endOfBook"], "fits\nful\nfull\n"),
    (&["run", "--ask", "examples/pages.ssl", "line", "endOfBook", "--", "full"], ""),
    (&["run", "--ask", "examples/pages.ssl", "line", "chapter", "endOfBook"], "\ns\nfits\n\nx\ne\n\nr\n"),
    (&["run", "--ask", "examples/pages.ssl", "line"], "q\n"),
    (&["why", "--book", "target/sst-tests/flat.book", "examples/footnote.ssl"], ""),
    (&["figures", "examples/footnote.ssl", "target/sst-tests/flat.book"], ""),
    (&["figures", "examples/pages.ssl", "examples/shelf/novel.book", "examples/shelf/poem.book", "examples/shelf/torn.book"], ""),
    (&["figures", "examples/pages.ssl"], ""),
    (&["figures", "--counts", "examples/pages.ssl", "examples/shelf/poem.book"], ""),
    (&["chart", "examples/margins.ssl"], ""),
    (&["chart", "--figures", "-", "examples/recipes.ssl"], RECIPES),
    (&["chart", "--figures", "-", "examples/pages.ssl"], RECIPES),
    (&["chart", "examples/pages.ssl", "-o", "target/sst-tests/golden.svg"], ""),
    (&["link", COMMON, "examples/pages/book.ssl", "examples/pages/line.ssl", "examples/pages/blank.ssl"], ""),
    (&["link", COMMON, "examples/pages/book.ssl"], ""),
    (
        &[
            "link",
            COMMON,
            "examples/pages/book.ssl",
            "examples/pages/line.ssl",
            "examples/pages/blank.ssl",
            "examples/pages/line.ssl",
        ],
        "",
    ),
    (&["link", COMMON, "examples/pages/book.ssl", "-"], "rules\nLine: plcaed;\nend"),
    (&["link", COMMON, "examples/pages/book.ssl", "-"], "rules\nLine: placed;\nend"),
    (&["link", COMMON, "examples/pages/book.ssl", "-"], "rules\nLine: {\nline;\nend"),
    (&["link", COMMON, "-"], "rules Line >> Fit: >> fits; end"),
    (&["link", COMMON, "examples/pages/book.ssl", "-"], "rules Line: @Lime; Blank >> Fit: >> full; end"),
    (&["link", "-", "examples/pages/book.ssl"], "input: line line; rules end"),
    (&["part", COMMON, "examples/pages/line.ssl", "-o", "target/sst-tests/golden.object"], ""),
    (&["part", COMMON, "-", "-o", "target/sst-tests/none.object"], "rules\nLine: plcaed;\nend"),
    (&["part", "-", "examples/pages/line.ssl", "-o", "target/sst-tests/none.object"], "input: line line; rules end"),
    (&["carry", "examples/pages.ssl", "examples/pages.ssl"], ""),
    (&["carry", "examples/footnote.ssl", "examples/footnote-mended.ssl"], ""),
    (&["carry", "examples/optional-item.ssl", "examples/optional-item-changed-over.ssl"], ""),
    (&["carry", "examples/pages.ssl", "-"], "rules M: > ; end"),
    (&["carry", "examples/pages.ssl", "examples/pages.ssl", "--walk", "-"], "no walk"),
    (&["load", "-"], "HD\0\x02\0\x01\0\x01TW\0\x01\0\x09"),
    (&["load", "-"], "HD\0\x02\0\x01\0\x01TW\0\x01\0\0"),
    (&["load", "-"], "HD\0\x02\0\x01\0\x01TW\0\x01\0\0\0"),
];

/// Texts for sentences that docs/FAULTS.md has no text for.
const CASES: [&str; 58] = [
    "",
    "rules",
    "rules M:",
    "rules M: { ? ; end",
    "rules M: [ | *: } ; end",
    "rules M: ; end end",
    "rules M ; end",
    "input a; rules M: ; end",
    "input: a b = c; rules M: ; end",
    "input: a; operators E: a left x; rules M: ; end",
    "input: a; operators E: a 1 middle x; rules M: ; end",
    "rules M: @'x'; end",
    "rules M: @M % behind a comment",
    "rules M: ''; end",
    "rules M: '123456789012345678901234567890123'; end",
    "rules M: 'open\n; end",
    "rules M: \"a\"; end",
    "rules M: _a; end",
    "rules M: // comment\n; end",
    "rules M: \u{e4}; end",
    "input: placed line; rules\n\tM: plcaed; end",
    "output: placed; rules M: .plaecd; end",
    "error: e; rules M: #f; end",
    "rules M: @Lime; Line: ; end",
    "type t: fits full; rules M: [@N | ful: ]; N >> t: >> fits; end",
    "type t: fits full; mechanism m: f(t); rules M: f(ful); end",
    "type t: v; rules M: ; N >> u: >> v; end",
    "mechanism m: f(t); type t: v; rules M: ; end",
    "input: a; output: o; operators E: a 1 left o; rules M: ^F @M; end",
    "input: a a; rules M: ; end",
    "input: a 'x' b 'x'; rules M: ; end",
    "input: a = 5 b = 4 c; rules M: ; end",
    "input: f; mechanism m: f; rules M: ; end",
    "mechanism m: f; rules M: ; f: ; end",
    "type t: v v; rules M: ; end",
    "type t: v; type t: w; rules M: ; end",
    "error: e; rules M: e; end",
    "rules M: N; N: ; end",
    "type t: v; rules M: @N; N >> t: >> v; end",
    "rules M: [@N | *: ]; N: ; end",
    "type t: v; mechanism m: f(t) c >> t; rules M: c; end",
    "type t: v; mechanism m: f(t) c >> t; rules M: [f(v) | *: ]; end",
    "type t: v; mechanism m: f(t) c >> t; rules M: f; end",
    "type t: v; mechanism m: f c >> t; rules M: f(v); end",
    "input: a; type t: v; rules M: a(v); end",
    "mechanism m: f; rules M: @f; end",
    "type t: v; rules M >> t: >> v; end",
    "input: a 'x'; rules M: [ | a: | 'x': ]; end",
    "type t: v; rules M: >> v; end",
    "type t: v w; rules M: ; N >> t: >>; end",
    "input: a; type t: v w; rules M: ; N >> t: [ | a: >> v | *: ]; end",
    "input: a; type t: v w; rules M: ; N >> t: { [ | a: ? | *: > ] } ? ; end",
    "input: n1234567890123456789012345678901x; rules M: ; end",
    "input: a = 65535 b; rules M: ; end",
    "input: a; output: o; operators E: a 16 left o; rules M: ; end",
    "input: a 'x'; output: o; operators E: a 1 left o 'x' 2 left o; rules M: ; end",
    "type t: v w x; mechanism m: c >> t; rules M: [c | v: ] [@N | w: ]; N >> t: >> v; L: ; end",
    "rules M: @N; N: [ | *: @M ]; end",
];

/// The texts of docs/FAULTS.md, bad and mended, by their sections' numbers; parts of a split program apart.
fn faults() -> Vec<(String, String)> {
    let document = std::fs::read_to_string("docs/FAULTS.md").expect("docs/FAULTS.md");
    let mut out = Vec::new();
    for section in document.split("\n## ").skip(1).filter(|section| !section.contains("\ncommon:")) {
        let number = section.split(':').next().unwrap_or_default();
        let blocks = section.split("\n\n").filter(|block| block.starts_with("    "));
        for (block, sort) in blocks.zip(["bad", "mended"]) {
            out.push((format!("{number}, {sort}"), format!("{}\n", block.trim())));
        }
    }
    out
}

/// A run as it is kept.
fn kept(arguments: &[&str], text: &str, ended: &Ended) -> String {
    let Ended { status, out, err } = ended;
    let feed = if text.ends_with('\n') { "" } else { "\n" };
    let text = if text.is_empty() { String::new() } else { format!("<< {}{feed}", plain(text)) };
    format!("$ sst {}\n{text}{out}== messages\n{err}== status {}\n\n", arguments.join(" "), *status as u8)
}

/// A text with its control characters escaped, but for tabs and line feeds.
fn plain(text: &str) -> String {
    let escaped = |sign: char| {
        if sign.is_control() && !"\t\n".contains(sign) { format!("\\x{:02x}", sign as u32) } else { sign.to_string() }
    };
    text.chars().map(escaped).collect()
}

fn ran(arguments: &[&str], text: Option<&str>, path: &str) -> String {
    let arguments: Vec<&str> = arguments.iter().map(|word| if *word == "@" { path } else { word }).collect();
    kept(&arguments, text.unwrap_or_default(), &sst(&arguments, text.unwrap_or_default().as_bytes()))
}

/// Compares with the file that is kept, or writes it.
fn compare(name: &str, found: &str) {
    let path = format!("tools/sst/tests/golden/{name}.txt");
    if std::env::var_os("SST_GOLDEN").is_some_and(|set| set == "write") {
        std::fs::write(&path, found).expect("tests/golden can be written");
    }
    let wanted = std::fs::read_to_string(&path).unwrap_or_default();
    let differs = wanted.lines().zip(found.lines()).find(|(wanted, found)| wanted != found);
    assert!(wanted == found, "{path} differs, first in {differs:?}; tools/sst/regenerate writes it anew");
}

#[test]
fn each_subcommand_on_each_text() {
    let (examples, faults) = (examples(), faults());
    assert_eq!(faults.len(), 20, "the texts of docs/FAULTS.md");
    folder();
    for (name, arguments) in RUNS {
        let mut found: String = examples.iter().map(|path| ran(arguments, None, path)).collect();
        for (section, text) in &faults {
            found.push_str(&format!("docs/FAULTS.md {section}\n{}", ran(arguments, Some(text), "-")));
        }
        compare(name, &found);
    }
    let others = OTHERS.iter().map(|(arguments, text)| ran(arguments, (!text.is_empty()).then_some(*text), ""));
    compare("others", &others.collect::<String>());
    compare("cases", &CASES.iter().map(|text| ran(&["check", "-"], Some(text), "")).collect::<String>());
}

#[test]
fn help() {
    let mut found = ran(&["--help"], None, "");
    for name in [
        "check", "why", "list", "chart", "carry", "part", "run", "header", "table", "link", "verify", "bound", "load", "admit",
        "figures", "certify",
    ] {
        found.push_str(&ran(&[name, "--help"], None, ""));
    }
    compare("help", &found);
}

#[test]
fn the_listers_lines() {
    for path in examples() {
        let listing = std::fs::read_to_string(path.replace(".ssl", ".listing")).expect("a listing");
        assert_eq!(sst(&["list", &path], b"").out, listing, "{path}");
    }
    let parts = ["examples/pages/common.ssl", "examples/pages/book.ssl", "examples/pages/line.ssl", "examples/pages/blank.ssl"];
    let linked = sst(&[&["link", "--list"], &parts[..]].concat(), b"");
    assert_eq!(linked.out, sst(&["list", "examples/pages.ssl"], b"").out);
    let ended = sst(&["list", "-"], b"rules M:\n> ; end");
    assert_eq!((ended.out.as_str(), ended.err.as_str()), ("refused 7 line 2\n", "at: >\n"));
}
