//! A lister: reads a program on standard input and prints its table and verdict, or the number and line of what is wrong.

use std::io::{Read, Write, stdin, stdout};

fn main() {
    let mut text = Vec::new();
    stdin().read_to_end(&mut text).expect("standard input can be read");
    let listing = reference::processor::listing(&text);
    stdout().write_all(listing.as_bytes()).expect("standard output can be written");
}
