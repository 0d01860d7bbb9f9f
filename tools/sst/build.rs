//! Tells `sst` its version, which the header has, and `sst certify` which toolchain proved the libraries and from which commit the command was
//! built.

use std::process::Command;

/// What a program prints on one line; nothing where it cannot be run.
fn line(program: &str, arguments: &[&str]) -> Option<String> {
    let output = Command::new(program).args(arguments).output().ok().filter(|output| output.status.success())?;
    let text = String::from_utf8(output.stdout).ok()?;
    Some(text.lines().next().unwrap_or_default().to_string())
}

/// The header that has the one version.
const HEADER: &str = "../../include/sst.h";

/// The parts of the header's version, joined by points.
fn version() -> String {
    let header = std::fs::read_to_string(HEADER).unwrap_or_default();
    let parts = header.lines().filter_map(|line| line.strip_prefix("#define SST_VERSION_")?.split_once(' '));
    parts.map(|(_, number)| number).collect::<Vec<_>>().join(".")
}

fn main() {
    println!("cargo::rustc-env=SST_VERSION={}", version());
    for file in ["build.rs", HEADER, "../../.git/HEAD", "../../.git/logs/HEAD"] {
        println!("cargo::rerun-if-changed={file}");
    }
    let unknown = || "not known".to_string();
    let changed = line("git", &["status", "--porcelain"]).is_some_and(|line| !line.is_empty());
    let commit = line("git", &["rev-parse", "HEAD"]).map(|commit| if changed { format!("{commit}, changed") } else { commit });
    println!("cargo::rustc-env=SST_TOOLCHAIN={}", line("rt", &["version"]).unwrap_or_else(unknown));
    println!("cargo::rustc-env=SST_COMMIT={}", commit.unwrap_or_else(unknown));
}
