//! Compiles the files of c/ and, with the feature `lib`, links libsst.a and libsst-desk.a, with `carry` libsst-carry.a too.
//!
//! `SST_PAD` is the number of a build with padding before the walkers, for scripts/bench-spread; without it there is none.

use std::env;
use std::path::Path;
use std::process::{Command, exit};

fn fail(message: &str) -> ! {
    eprintln!("{message}");
    exit(1)
}

fn run(command: &mut Command) {
    match command.status() {
        Ok(status) if status.success() => {}
        Ok(status) => fail(&format!("{command:?}: {status}")),
        Err(error) => fail(&format!("{command:?}: {error}")),
    }
}

/// The walkers.
const RUST: u32 = 0;
const C: u32 = 1;
const LIBRARY: u32 = 2;

/// Up to 4 KB of padding before the code of a walker, so that it falls elsewhere: an amount drawn for each walker and each build, and none
/// for build 0.
fn padding(walker: u32) -> u32 {
    let build: u32 = env::var("SST_PAD").map_or(0, |number| number.parse().unwrap_or_else(|_| fail("SST_PAD is no number")));
    let drawn = build.wrapping_mul(0x9E37_79B1).rotate_left(walker * 11).wrapping_mul(0x85EB_CA6B) >> 24;
    16 * drawn
}

/// Padding as assembler text, in a section of its own that the linker keeps.
fn padding_section(walker: u32) -> String {
    format!(".section .text.padding,\"axR\",@progbits\n.skip {}, 0x90\n.text\n", padding(walker))
}

fn write(file: &str, contents: &str) {
    if let Err(error) = std::fs::write(file, contents) {
        fail(&format!("{file}: {error}"));
    }
}

fn main() {
    let Ok(out) = env::var("OUT_DIR") else { fail("OUT_DIR is not set") };
    println!("cargo::rerun-if-env-changed=SST_PAD");
    write(&format!("{out}/padding.s"), &padding_section(RUST));
    // The C walker's code stands in one section, behind this.
    let before = format!("{out}/padding.h");
    write(&before, &format!("__asm__(\".text\\n.skip {}, 0x90\\n\");\n", padding(C)));
    let compiler = env::var("CC").unwrap_or_else(|_| "gcc".to_string());
    let archive = format!("{out}/libcwalker.a");
    println!("cargo::rerun-if-env-changed=CC");
    println!("cargo::rerun-if-changed=build.rs");
    let _ = std::fs::remove_file(&archive);
    for name in ["walker", "stack"] {
        let (source, object) = (format!("c/{name}.c"), format!("{out}/{name}.o"));
        println!("cargo::rerun-if-changed={source}");
        run(Command::new(&compiler).args([
            "-std=c99",
            "-O2",
            "-Wall",
            "-Wextra",
            "-pedantic",
            "-fPIC",
            "-include",
            &before,
            "-c",
            &source,
            "-o",
            &object,
        ]));
        run(Command::new("ar").args(["crs", &archive, &object]));
    }
    println!("cargo::rustc-link-search=native={out}");
    println!("cargo::rustc-link-lib=static=cwalker");

    println!("cargo::rerun-if-env-changed=SST_LIB_DIR");
    if env::var_os("CARGO_FEATURE_LIB").is_some() {
        let Ok(dir) = env::var("SST_LIB_DIR") else {
            fail("set SST_LIB_DIR to the folder of the libraries, or build with --no-default-features")
        };
        let carry = env::var_os("CARGO_FEATURE_CARRY").is_some();
        for (name, entries) in LIBRARIES.into_iter().filter(|(name, _)| carry || *name != CARRY_IN) {
            let parts: &[&str] = if name == PARTS_IN && env::var_os("CARGO_FEATURE_PARTS").is_some() { PARTS } else { &[] };
            let library = Path::new(&dir).join(format!("lib{name}.a"));
            let Ok(library) = library.canonicalize() else {
                fail(&format!("{}: not found; or build with --no-default-features", library.display()))
            };
            println!("cargo::rerun-if-changed={}", library.display());
            entries_only(&library, &[entries, parts].concat(), name, &out);
            println!("cargo::rustc-link-lib=static={name}-entries");
        }
        println!("cargo::rustc-link-lib=dylib=m");
        println!("cargo::rustc-link-lib=dylib=c");
    }
}

/// The libraries, each with its entries in the alphabet's order.
const LIBRARIES: [(&str, &[&str]); 3] = [("sst", DEVICE), ("sst-desk", DESK), (CARRY_IN, CARRY)];
const DESK: &[&str] = &["add_book", "rule_total", "rules", "rules_total", "shelf"];
/// The entries of the feature `parts`, and the library that they are in.
const PARTS: &[&str] = &["link", "part"];
const PARTS_IN: &str = "sst-desk";
/// The entry of the feature `carry`, and its library.
const CARRY: &[&str] = &["carry"];
const CARRY_IN: &str = "sst-carry";
const DEVICE: &[&str] = &[
    "admit", //
    "allowance",
    "filter",
    "fresh",
    "load",
    "load_admitted",
    "location",
    "paused",
    "phase",
    "process",
    "read",
    "reason",
    "refill",
    "screen_fresh",
    "turn_paused",
    "turn_whole",
    "used",
    "whole",
    "write_file",
];

/// Makes an archive in `out` that shows nothing but the entries, so that what else the library holds cannot meet a namesake here.
fn entries_only(library: &Path, entries: &[&str], name: &str, out: &str) {
    let object = format!("{out}/{name}.o");
    let archive = format!("{out}/lib{name}-entries.a");
    let before = format!("{out}/before-{name}");
    write(&format!("{before}.s"), &padding_section(LIBRARY));
    run(Command::new("as").args(["--noexecstack", &format!("{before}.s"), "-o", &format!("{before}.o")]));
    let mut linker = Command::new("ld");
    linker.args(["-r", "--force-group-allocation", "-o", &object, &format!("{before}.o")]);
    for entry in entries {
        linker.args(["-u", &format!("sst_{entry}")]);
    }
    run(linker.arg(library));
    run(Command::new("objcopy").args(["-R", ".llvmbc", "-R", ".llvmcmd", "--wildcard", "--keep-global-symbol=sst_*", &object]));
    let _ = std::fs::remove_file(&archive);
    run(Command::new("ar").args(["crs", &archive, &object]));
}
