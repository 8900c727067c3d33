//! The peer of the program scancheck: the same lines for what is read from standard input.

#[allow(dead_code)]
#[path = "../peers/mod.rs"]
mod peers;

use std::io::{stdin, stdout, Read, Write};

fn main() {
    let mut input = Vec::new();
    stdin().read_to_end(&mut input).expect("standard input is read");
    stdout().write_all(&peers::report::report(&input)).expect("the lines are printed");
}
