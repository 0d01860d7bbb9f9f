//! Tests of the command as its users meet it.

mod carried;
mod charts;
mod files;
mod generated;
mod golden;
mod planted;
mod process;

use reference::quiet::Measurer;
use reference::side::Reference;
use sst::{Status, Streams, run};
use std::ffi::OsString;
use std::sync::Once;

/// What a run left.
struct Ended {
    status: Status,
    out: String,
    err: String,
}

fn sst(arguments: &[&str], input: &[u8]) -> Ended {
    sst_with(&Reference, arguments, input)
}

/// All tests run in the repository's own folder.
fn root() {
    static ROOT: Once = Once::new();
    ROOT.call_once(|| std::env::set_current_dir(concat!(env!("CARGO_MANIFEST_DIR"), "/../..")).expect("the repository"));
}

fn sst_with(second: &dyn Measurer, arguments: &[&str], input: &[u8]) -> Ended {
    sst_at(second, arguments, input, false)
}

/// The same with messages that go to a terminal.
fn sst_at(second: &dyn Measurer, arguments: &[&str], mut input: &[u8], terminal: bool) -> Ended {
    root();
    let arguments: Vec<OsString> = arguments.iter().map(OsString::from).collect();
    let (mut out, mut err) = (Vec::new(), Vec::new());
    let streams = Streams { input: &mut input, out: &mut out, err: &mut err, colours: false, terminal };
    let status = run(&arguments, second, streams);
    let text = |bytes: &[u8]| String::from_utf8(bytes.to_vec()).expect("messages are UTF-8");
    Ended { status, out: text(&out), err: text(&err) }
}

/// A folder for files that tests write.
fn folder() -> &'static str {
    root();
    std::fs::create_dir_all("target/sst-tests").expect("a folder for tests");
    "target/sst-tests"
}

/// The programs of examples/.
fn examples() -> Vec<String> {
    root();
    let files = std::fs::read_dir("examples").expect("examples/").filter_map(|entry| entry.ok());
    let names = files.map(|entry| format!("examples/{}", entry.file_name().to_string_lossy()));
    let mut names: Vec<String> = names.filter(|name| name.ends_with(".ssl")).collect();
    names.sort();
    names
}
